% Expressions in one variable: a polynomial is derived again and again, simplified and evaluated.

main :- slope(60, 2, 3, Value), write('Value = '), write(Value), nl.

slope(Degree, Times, Place, Value) :-
    polynomial(Degree, Polynomial),
    derived(Times, Polynomial, Derived),
    value(Derived, Place, Value).

% 1 + x * (2 + x * (3 + ..
polynomial(Degree, Polynomial) :- polynomial_from(0, Degree, Polynomial).

polynomial_from(Power, Degree, Polynomial) :-
    Next is Power + 1,
    (   Power =:= Degree ->
        Polynomial = number(Next)
    ;   Polynomial = sum(number(Next), product(x, Higher)),
        polynomial_from(Next, Degree, Higher)
    ).

derived(Times, Expression, Derived) :-
    (   Times =:= 0 ->
        Derived = Expression
    ;   derivative(Expression, First),
        simple(First, Simple),
        Fewer is Times - 1,
        derived(Fewer, Simple, Derived)
    ).

derivative(number(_), number(0)).
derivative(x, number(1)).
derivative(sum(A, B), sum(DA, DB)) :- derivative(A, DA), derivative(B, DB).
derivative(product(A, B), sum(product(DA, B), product(A, DB))) :- derivative(A, DA), derivative(B, DB).

simple(number(N), number(N)).
simple(x, x).
simple(sum(A, B), Simple) :- simple(A, SA), simple(B, SB), simple_sum(SA, SB, Simple).
simple(product(A, B), Simple) :- simple(A, SA), simple(B, SB), simple_product(SA, SB, Simple).

simple_sum(A, B, Sum) :-
    (   A = number(0) ->
        Sum = B
    ;   B = number(0) ->
        Sum = A
    ;   A = number(M), B = number(N) ->
        Both is M + N,
        Sum = number(Both)
    ;   Sum = sum(A, B)
    ).

simple_product(A, B, Product) :-
    (   ( A = number(0) ; B = number(0) ) ->
        Product = number(0)
    ;   A = number(1) ->
        Product = B
    ;   B = number(1) ->
        Product = A
    ;   A = number(M), B = number(N) ->
        Both is M * N,
        Product = number(Both)
    ;   Product = product(A, B)
    ).

value(number(N), _, N).
value(x, X, X).
value(sum(A, B), X, Value) :- value(A, X, M), value(B, X, N), Value is (M + N) mod 1000003.
value(product(A, B), X, Value) :- value(A, X, M), value(B, X, N), Value is (M * N) mod 1000003.
