% Fibonacci's numbers by two calls each.

main :- fib(27, F), write('F = '), write(F), nl.

fib(N, F) :-
    (   N < 2 ->
        F = N
    ;   N1 is N - 1,
        N2 is N - 2,
        fib(N1, A),
        fib(N2, B),
        F is A + B
    ).
