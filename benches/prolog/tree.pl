% Inserts into a binary search tree and lookups in it: keys in no order are put in, and then each is looked for.

main :- round(15000, Sum), write('Sum = '), write(Sum), nl.

round(Count, Sum) :- grow(Count, 1, empty, Tree), sum_of(Count, 1, Tree, 0, Sum).

grow(Count, Seed, Before, Tree) :-
    (   Count =:= 0 ->
        Tree = Before
    ;   Key is (Seed * 16807) mod 2147483647,
        insert(Before, Key, Count, Between),
        Fewer is Count - 1,
        grow(Fewer, Key, Between, Tree)
    ).

insert(empty, Key, Value, node(empty, Key, Value, empty)).
insert(node(Left, K, V, Right), Key, Value, Tree) :-
    (   Key < K ->
        Tree = node(Grown, K, V, Right),
        insert(Left, Key, Value, Grown)
    ;   Key > K ->
        Tree = node(Left, K, V, Grown),
        insert(Right, Key, Value, Grown)
    ;   Tree = node(Left, K, Value, Right)
    ).

sum_of(Count, Seed, Tree, Before, Sum) :-
    (   Count =:= 0 ->
        Sum = Before
    ;   Key is (Seed * 16807) mod 2147483647,
        Fewer is Count - 1,
        (   look_up(Tree, Key, Value) ->
            Behind is Before + Value,
            sum_of(Fewer, Key, Tree, Behind, Sum)
        ;   sum_of(Fewer, Key, Tree, Before, Sum)
        )
    ).

look_up(node(Left, K, V, Right), Key, Value) :-
    (   Key < K ->
        look_up(Left, Key, Value)
    ;   Key > K ->
        look_up(Right, Key, Value)
    ;   Value = V
    ).
