:- module fib.
:- import_module int.

% Fibonacci's numbers by two calls each.

:- pred fib(int::in, int::out) is det.
fib(N, F) :-
    ( if N < 2 then
        F = N
    else
        fib(N - 1, A),
        fib(N - 2, B),
        F = A + B
    ).
