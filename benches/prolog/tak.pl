% Takeuchi's function: calls, comparisons and differences.

main :- tak(20, 12, 5, A), write('A = '), write(A), nl.

tak(X, Y, Z, A) :-
    (   X =< Y ->
        A = Z
    ;   X1 is X - 1,
        Y1 is Y - 1,
        Z1 is Z - 1,
        tak(X1, Y, Z, B),
        tak(Y1, Z, X, C),
        tak(Z1, X, Y, D),
        tak(B, C, D, A)
    ).
