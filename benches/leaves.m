:- module leaves.
:- import_module int.

% A tree with two kinds of nodes: one is built, its leaves are raised, it is mirrored, and it is folded in three ways.

:- type tree ---> leaf(int) ; branch(tree, tree).

:- pred round(int::in, int::out, int::out, int::out) is det.
round(Depth, Sum, Largest, Deepest) :-
    full(Depth, 1, Tree),
    raised(Tree, Depth, Raised),
    mirrored(Raised, Mirrored),
    sum(Mirrored, Sum),
    largest(Mirrored, Largest),
    depth(Mirrored, Deepest).

:- pred full(int::in, int::in, tree::out) is det.
full(Depth, Number, Tree) :-
    ( if Depth = 0 then
        Tree = leaf(Number)
    else
        full(Depth - 1, 2 * Number, Left),
        full(Depth - 1, 2 * Number + 1, Right),
        Tree = branch(Left, Right)
    ).

:- pred raised(tree::in, int::in, tree::out) is det.
raised(leaf(X), By, leaf(X + By)).
raised(branch(Left, Right), By, branch(A, B)) :- raised(Left, By, A), raised(Right, By, B).

:- pred mirrored(tree::in, tree::out) is det.
mirrored(leaf(X), leaf(X)).
mirrored(branch(Left, Right), branch(A, B)) :- mirrored(Right, A), mirrored(Left, B).

:- pred sum(tree::in, int::out) is det.
sum(leaf(X), X).
sum(branch(Left, Right), A + B) :- sum(Left, A), sum(Right, B).

:- pred largest(tree::in, int::out) is det.
largest(leaf(X), X).
largest(branch(Left, Right), X) :- largest(Left, A), largest(Right, B), larger(A, B, X).

:- pred depth(tree::in, int::out) is det.
depth(leaf(_), 0).
depth(branch(Left, Right), X + 1) :- depth(Left, A), depth(Right, B), larger(A, B, X).

:- pred larger(int::in, int::in, int::out) is det.
larger(A, B, X) :-
    ( if A > B then
        X = A
    else
        X = B
    ).
