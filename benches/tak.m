:- module tak.
:- import_module int.

% Takeuchi's function: calls, comparisons and differences.

:- pred tak(int::in, int::in, int::in, int::out) is det.
tak(X, Y, Z, A) :-
    ( if X =< Y then
        A = Z
    else
        tak(X - 1, Y, Z, B),
        tak(Y - 1, Z, X, C),
        tak(Z - 1, X, Y, D),
        tak(B, C, D, A)
    ).
