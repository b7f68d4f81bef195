:- module one.
:- import_module int.
:- pred add(int::in, int::in, int::out) is det.
add(X, Y, Z) :- Z = X + Y.
