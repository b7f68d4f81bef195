% A tree with two kinds of nodes: one is built, its leaves are raised, it is mirrored, and it is folded in three ways.

main :-
    round(15, Sum, Largest, Deepest),
    write('Sum = '), write(Sum), write(', Largest = '), write(Largest), write(', Deepest = '), write(Deepest), nl.

round(Depth, Sum, Largest, Deepest) :-
    full(Depth, 1, Tree),
    raised(Tree, Depth, Raised),
    mirrored(Raised, Mirrored),
    sum(Mirrored, Sum),
    largest(Mirrored, Largest),
    depth(Mirrored, Deepest).

full(Depth, Number, Tree) :-
    (   Depth =:= 0 ->
        Tree = leaf(Number)
    ;   Fewer is Depth - 1,
        Even is 2 * Number,
        Odd is 2 * Number + 1,
        Tree = branch(Left, Right),
        full(Fewer, Even, Left),
        full(Fewer, Odd, Right)
    ).

raised(leaf(X), By, leaf(Y)) :- Y is X + By.
raised(branch(Left, Right), By, branch(A, B)) :- raised(Left, By, A), raised(Right, By, B).

mirrored(leaf(X), leaf(X)).
mirrored(branch(Left, Right), branch(A, B)) :- mirrored(Right, A), mirrored(Left, B).

sum(leaf(X), X).
sum(branch(Left, Right), Sum) :- sum(Left, A), sum(Right, B), Sum is A + B.

largest(leaf(X), X).
largest(branch(Left, Right), X) :- largest(Left, A), largest(Right, B), larger(A, B, X).

depth(leaf(_), 0).
depth(branch(Left, Right), Depth) :- depth(Left, A), depth(Right, B), larger(A, B, X), Depth is X + 1.

larger(A, B, X) :-
    (   A > B ->
        X = A
    ;   X = B
    ).
