:- module two.
:- pred add(int::in, int::in, int::out) is det.
add(X, Y, Z) :- Z = X + Y.
:- pred twice(int::in, int::out) is det.
twice(X, Y) :- add(X, X, Y).
