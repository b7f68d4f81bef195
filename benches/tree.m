:- module tree.
:- import_module int.

% Inserts into a binary search tree and lookups in it: keys in no order are put in, and then each is looked for.

:- type tree ---> empty ; node(tree, int, int, tree).

:- pred round(int::in, int::out) is det.
round(Count, Sum) :- grow(Count, 1, empty, Tree), sum_of(Count, 1, Tree, 0, Sum).

:- pred grow(int::in, int::in, tree::in, tree::out) is det.
grow(Count, Seed, Before, Tree) :-
    ( if Count = 0 then
        Tree = Before
    else
        Key = (Seed * 16807) mod 2147483647,
        insert(Before, Key, Count, Between),
        grow(Count - 1, Key, Between, Tree)
    ).

:- pred insert(tree::in, int::in, int::in, tree::out) is det.
insert(empty, Key, Value, node(empty, Key, Value, empty)).
insert(node(Left, K, V, Right), Key, Value, Tree) :-
    ( if Key < K then
        insert(Left, Key, Value, Grown),
        Tree = node(Grown, K, V, Right)
    else if Key > K then
        insert(Right, Key, Value, Grown),
        Tree = node(Left, K, V, Grown)
    else
        Tree = node(Left, K, Value, Right)
    ).

:- pred sum_of(int::in, int::in, tree::in, int::in, int::out) is det.
sum_of(Count, Seed, Tree, Before, Sum) :-
    ( if Count = 0 then
        Sum = Before
    else
        Key = (Seed * 16807) mod 2147483647,
        ( if look_up(Tree, Key, Value) then
            sum_of(Count - 1, Key, Tree, Before + Value, Sum)
        else
            sum_of(Count - 1, Key, Tree, Before, Sum)
        )
    ).

:- pred look_up(tree::in, int::in, int::out) is semidet.
look_up(node(Left, K, V, Right), Key, Value) :-
    ( if Key < K then
        look_up(Left, Key, Value)
    else if Key > K then
        look_up(Right, Key, Value)
    else
        Value = V
    ).
