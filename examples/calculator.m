:- module calculator.
:- import_module int, list, require.

% Reads sums such as 2 + 3 * (4 - 1), given as lists of tokens, and works them out.
:- type token ---> number(int) ; plus ; minus ; times ; over ; open ; close.
:- type expression
    --->    constant(int)
    ;       sum(expression, expression)
    ;       difference(expression, expression)
    ;       product(expression, expression)
    ;       quotient(expression, expression).

:- pred parse(list(token)::in, expression::out) is semidet.
parse(Tokens, Expression) :- expression(Tokens, Expression, []).

% An expression at the front of the tokens, and the tokens behind it.
:- pred expression(list(token)::in, expression::out, list(token)::out) is semidet.
expression(Tokens, Expression, Rest) :-
    term(Tokens, First, Behind),
    more_terms(First, Behind, Expression, Rest).

:- pred more_terms(expression::in, list(token)::in, expression::out, list(token)::out) is semidet.
more_terms(Left, Tokens, Expression, Rest) :-
    ( if Tokens = [plus | Behind] then
        term(Behind, Right, Others),
        more_terms(sum(Left, Right), Others, Expression, Rest)
    else if Tokens = [minus | Behind] then
        term(Behind, Right, Others),
        more_terms(difference(Left, Right), Others, Expression, Rest)
    else
        Expression = Left,
        Rest = Tokens
    ).

:- pred term(list(token)::in, expression::out, list(token)::out) is semidet.
term(Tokens, Expression, Rest) :-
    factor(Tokens, First, Behind),
    more_factors(First, Behind, Expression, Rest).

:- pred more_factors(expression::in, list(token)::in, expression::out, list(token)::out) is semidet.
more_factors(Left, Tokens, Expression, Rest) :-
    ( if Tokens = [times | Behind] then
        factor(Behind, Right, Others),
        more_factors(product(Left, Right), Others, Expression, Rest)
    else if Tokens = [over | Behind] then
        factor(Behind, Right, Others),
        more_factors(quotient(Left, Right), Others, Expression, Rest)
    else
        Expression = Left,
        Rest = Tokens
    ).

:- pred factor(list(token)::in, expression::out, list(token)::out) is semidet.
factor([Token | Tokens], Expression, Rest) :-
    (
        Token = number(N),
        Expression = constant(N),
        Rest = Tokens
    ;
        Token = minus,
        factor(Tokens, Inner, Rest),
        Expression = difference(constant(0), Inner)
    ;
        Token = open,
        expression(Tokens, Expression, [close | Rest])
    ).

:- pred value(expression::in, int::out) is det.
value(constant(N), N).
value(sum(A, B), X + Y) :- value(A, X), value(B, Y).
value(difference(A, B), X - Y) :- value(A, X), value(B, Y).
value(product(A, B), X * Y) :- value(A, X), value(B, Y).
value(quotient(A, B), X // Y) :- value(A, X), value(B, Y).

:- pred calculate(list(token)::in, int::out) is det.
calculate(Tokens, Value) :-
    ( if parse(Tokens, Expression) then
        value(Expression, Value)
    else
        error("this is no expression")
    ).
