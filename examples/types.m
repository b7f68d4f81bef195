:- module types.
:- import_module int, list.

% Finds the types of expressions of a small functional language, in which nothing declares them.
:- type expression
    --->    number(int)
    ;       variable(string)
    ;       function(string, expression)
    ;       apply(expression, expression)
    ;       choose(expression, expression, expression)
    ;       sum(expression, expression)
    ;       less(expression, expression).

% A type that is not known yet has a number, and an equation may say later what it is.
:- type simple_type
    --->    integer
    ;       truth
    ;       arrow(simple_type, simple_type)
    ;       unknown(int).
:- type equation ---> equation(int, simple_type).

% The number of the next unknown, and the equations that were found.
:- type state ---> state(int, list(equation)).

% A variable that stands for an argument, and its type.
:- type typing ---> typing(string, simple_type).

% The type of an expression. There is none where two types clash or a variable is not in sight.
:- pred type_of(expression::in, simple_type::out) is semidet.
type_of(Expression, Type) :-
    infer(Expression, [], Found, state(0, []), state(_, Equations)),
    solved(Equations, Found, Type).

:- pred infer(expression::in, list(typing)::in, simple_type::out, state::in, state::out) is semidet.
infer(number(_), _, integer, State, State).
infer(variable(Name), InSight, Type, State, State) :-
    look_up(Name, InSight, Type).
infer(function(Name, Body), InSight, arrow(Argument, Result), Before, After) :-
    fresh(Argument, Before, Between),
    infer(Body, [typing(Name, Argument) | InSight], Result, Between, After).
infer(apply(Function, Argument), InSight, Result, Before, After) :-
    infer(Function, InSight, FunctionType, Before, Between),
    infer(Argument, InSight, ArgumentType, Between, Behind),
    fresh(Result, Behind, WithResult),
    equate(FunctionType, arrow(ArgumentType, Result), WithResult, After).
infer(choose(Condition, Then, Else), InSight, Type, Before, After) :-
    expect(truth, Condition, InSight, Before, Between),
    infer(Then, InSight, Type, Between, Behind),
    expect(Type, Else, InSight, Behind, After).
infer(sum(Left, Right), InSight, integer, Before, After) :-
    expect(integer, Left, InSight, Before, Between),
    expect(integer, Right, InSight, Between, After).
infer(less(Left, Right), InSight, truth, Before, After) :-
    expect(integer, Left, InSight, Before, Between),
    expect(integer, Right, InSight, Between, After).

:- pred expect(simple_type::in, expression::in, list(typing)::in, state::in, state::out) is semidet.
expect(Type, Expression, InSight, Before, After) :-
    infer(Expression, InSight, Found, Before, Between),
    equate(Type, Found, Between, After).

% The variable in front hides those of the same name behind it.
:- pred look_up(string::in, list(typing)::in, simple_type::out) is semidet.
look_up(Name, [typing(Other, Type) | InSight], Found) :-
    ( if Name = Other then Found = Type else look_up(Name, InSight, Found) ).

:- pred fresh(simple_type::out, state::in, state::out) is det.
fresh(unknown(N), state(N, Equations), state(N + 1, Equations)).

% Makes two types equal by equations for their unknowns, where that can be.
:- pred equate(simple_type::in, simple_type::in, state::in, state::out) is semidet.
equate(Left, Right, Before, After) :-
    Before = state(Next, Equations),
    solved(Equations, Left, A),
    solved(Equations, Right, B),
    ( if A = B then
        After = Before
    else if A = unknown(N) then
        not occurs(N, B),
        After = state(Next, [equation(N, B) | Equations])
    else if B = unknown(N) then
        not occurs(N, A),
        After = state(Next, [equation(N, A) | Equations])
    else
        A = arrow(FromA, ToA),
        B = arrow(FromB, ToB),
        equate(FromA, FromB, Before, Between),
        equate(ToA, ToB, Between, After)
    ).

% A type that were a part of itself would have no end, so it is none.
:- pred occurs(int::in, simple_type::in) is semidet.
occurs(N, unknown(N)).
occurs(N, arrow(From, To)) :-
    (
        occurs(N, From)
    ;
        occurs(N, To)
    ).

% The type with all that the equations say of its unknowns.
:- pred solved(list(equation)::in, simple_type::in, simple_type::out) is det.
solved(_, integer, integer).
solved(_, truth, truth).
solved(Equations, arrow(From, To), arrow(SolvedFrom, SolvedTo)) :-
    solved(Equations, From, SolvedFrom),
    solved(Equations, To, SolvedTo).
solved(Equations, unknown(N), Type) :-
    ( if equation_for(N, Equations, Found) then
        solved(Equations, Found, Type)
    else
        Type = unknown(N)
    ).

:- pred equation_for(int::in, list(equation)::in, simple_type::out) is semidet.
equation_for(N, [equation(Other, Type) | Equations], Found) :-
    ( if N = Other then Found = Type else equation_for(N, Equations, Found) ).
