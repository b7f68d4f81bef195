:- module derivative.
:- import_module int.

% Expressions in one variable: a polynomial is derived again and again, simplified and evaluated.

:- type expression
    --->    number(int)
    ;       x
    ;       sum(expression, expression)
    ;       product(expression, expression).

:- pred slope(int::in, int::in, int::in, int::out) is det.
slope(Degree, Times, Place, Value) :-
    polynomial(Degree, Polynomial),
    derived(Times, Polynomial, Derived),
    value(Derived, Place, Value).

% 1 + x * (2 + x * (3 + ..
:- pred polynomial(int::in, expression::out) is det.
polynomial(Degree, Polynomial) :- polynomial_from(0, Degree, Polynomial).

:- pred polynomial_from(int::in, int::in, expression::out) is det.
polynomial_from(Power, Degree, Polynomial) :-
    ( if Power = Degree then
        Polynomial = number(Power + 1)
    else
        polynomial_from(Power + 1, Degree, Higher),
        Polynomial = sum(number(Power + 1), product(x, Higher))
    ).

:- pred derived(int::in, expression::in, expression::out) is det.
derived(Times, Expression, Derived) :-
    ( if Times = 0 then
        Derived = Expression
    else
        derivative(Expression, First),
        simple(First, Simple),
        derived(Times - 1, Simple, Derived)
    ).

:- pred derivative(expression::in, expression::out) is det.
derivative(number(_), number(0)).
derivative(x, number(1)).
derivative(sum(A, B), sum(DA, DB)) :- derivative(A, DA), derivative(B, DB).
derivative(product(A, B), sum(product(DA, B), product(A, DB))) :- derivative(A, DA), derivative(B, DB).

:- pred simple(expression::in, expression::out) is det.
simple(number(N), number(N)).
simple(x, x).
simple(sum(A, B), Simple) :- simple(A, SA), simple(B, SB), simple_sum(SA, SB, Simple).
simple(product(A, B), Simple) :- simple(A, SA), simple(B, SB), simple_product(SA, SB, Simple).

:- pred simple_sum(expression::in, expression::in, expression::out) is det.
simple_sum(A, B, Sum) :-
    ( if A = number(0) then
        Sum = B
    else if B = number(0) then
        Sum = A
    else if A = number(M), B = number(N) then
        Sum = number(M + N)
    else
        Sum = sum(A, B)
    ).

:- pred simple_product(expression::in, expression::in, expression::out) is det.
simple_product(A, B, Product) :-
    ( if ( A = number(0) ; B = number(0) ) then
        Product = number(0)
    else if A = number(1) then
        Product = B
    else if B = number(1) then
        Product = A
    else if A = number(M), B = number(N) then
        Product = number(M * N)
    else
        Product = product(A, B)
    ).

:- pred value(expression::in, int::in, int::out) is det.
value(number(N), _, N).
value(x, X, X).
value(sum(A, B), X, (M + N) mod 1000003) :- value(A, X, M), value(B, X, N).
value(product(A, B), X, (M * N) mod 1000003) :- value(A, X, M), value(B, X, N).
