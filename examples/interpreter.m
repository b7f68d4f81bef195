:- module interpreter.
:- import_module int, list, require.

% Runs programs of a small language with variables, choices and loops.
:- type expression
    --->    number(int)
    ;       variable(string)
    ;       apply(operator, expression, expression).
:- type operator ---> add ; subtract ; multiply ; divide ; remainder ; less.
:- type statement
    --->    set(string, expression)
    ;       choose(expression, list(statement), list(statement))
    ;       while(expression, list(statement))
    ;       print(expression).
:- type binding ---> binding(string, int).

% What a program prints.
:- pred run(list(statement)::in, list(int)::out) is det.
run(Program, Printed) :-
    execute_all(Program, [], _, [], Reversed),
    reverse(Reversed, Printed).

:- pred execute_all(list(statement)::in, list(binding)::in, list(binding)::out, list(int)::in, list(int)::out) is det.
execute_all([], Bindings, Bindings, Printed, Printed).
execute_all([Statement | Statements], Before, After, PrintedBefore, PrintedAfter) :-
    execute(Statement, Before, Between, PrintedBefore, PrintedBetween),
    execute_all(Statements, Between, After, PrintedBetween, PrintedAfter).

:- pred execute(statement::in, list(binding)::in, list(binding)::out, list(int)::in, list(int)::out) is det.
execute(set(Name, Expression), Before, After, Printed, Printed) :-
    evaluate(Expression, Before, Value),
    store(Name, Value, Before, After).
execute(choose(Condition, Yes, No), Before, After, PrintedBefore, PrintedAfter) :-
    evaluate(Condition, Before, Value),
    ( if Value = 0 then
        execute_all(No, Before, After, PrintedBefore, PrintedAfter)
    else
        execute_all(Yes, Before, After, PrintedBefore, PrintedAfter)
    ).
execute(while(Condition, Body), Before, After, PrintedBefore, PrintedAfter) :-
    evaluate(Condition, Before, Value),
    ( if Value = 0 then
        After = Before,
        PrintedAfter = PrintedBefore
    else
        execute_all(Body, Before, Between, PrintedBefore, PrintedBetween),
        execute(while(Condition, Body), Between, After, PrintedBetween, PrintedAfter)
    ).
execute(print(Expression), Bindings, Bindings, Printed, [Value | Printed]) :-
    evaluate(Expression, Bindings, Value).

:- pred evaluate(expression::in, list(binding)::in, int::out) is det.
evaluate(number(N), _, N).
evaluate(variable(Name), Bindings, Value) :-
    ( if look_up(Name, Bindings, Found) then
        Value = Found
    else
        error(Name)
    ).
evaluate(apply(Operator, Left, Right), Bindings, Value) :-
    evaluate(Left, Bindings, X),
    evaluate(Right, Bindings, Y),
    apply(Operator, X, Y, Value).

:- pred apply(operator::in, int::in, int::in, int::out) is det.
apply(add, X, Y, X + Y).
apply(subtract, X, Y, X - Y).
apply(multiply, X, Y, X * Y).
apply(divide, X, Y, X // Y).
apply(remainder, X, Y, X rem Y).
apply(less, X, Y, Z) :- ( if X < Y then Z = 1 else Z = 0 ).

:- pred look_up(string::in, list(binding)::in, int::out) is semidet.
look_up(Name, [binding(Other, Value) | Bindings], Found) :-
    ( if Name = Other then
        Found = Value
    else
        look_up(Name, Bindings, Found)
    ).

:- pred store(string::in, int::in, list(binding)::in, list(binding)::out) is det.
store(Name, Value, [], [binding(Name, Value)]).
store(Name, Value, [binding(Other, Old) | Bindings], After) :-
    ( if Name = Other then
        After = [binding(Name, Value) | Bindings]
    else
        store(Name, Value, Bindings, Others),
        After = [binding(Other, Old) | Others]
    ).

% The greatest common divisor of two integers.
:- pred divisor(int::in, int::in, list(statement)::out) is det.
divisor(A, B, Program) :-
    Program = [
        set("a", number(A)),
        set("b", number(B)),
        while(variable("b"), [
            set("c", apply(remainder, variable("a"), variable("b"))),
            set("a", variable("b")),
            set("b", variable("c"))
        ]),
        print(variable("a"))
    ].
