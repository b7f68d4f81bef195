:- module machine.
:- import_module int, list.

% An interpreter of a small stack machine with named variables and a loop.

:- type instruction
    --->    push(int)
    ;       load(string)
    ;       store(string)
    ;       add
    ;       subtract
    ;       multiply
    ;       remainder
    ;       while(list(instruction), list(instruction)).

:- type variable ---> variable(string, int).

% Of the squares from 1 to Count the sum of what is left over by a division by 7.
:- pred squares(int::in, int::out) is semidet.
squares(Count, Sum) :-
    program(Count, Program),
    run(Program, [], [], _, Variables),
    value(Variables, "sum", Sum).

:- pred program(int::in, list(instruction)::out) is det.
program(Count, [push(Count), store("n"), push(0), store("sum"), while(Test, Body)]) :-
    Test = [load("n")],
    Body = [
        load("sum"), load("n"), load("n"), multiply, push(7), remainder, add, store("sum"),
        load("n"), push(1), subtract, store("n")
    ].

:- pred run(list(instruction)::in, list(int)::in, list(variable)::in, list(int)::out, list(variable)::out) is semidet.
run([], Stack, Variables, Stack, Variables).
run([Instruction | Instructions], Stack0, Variables0, Stack, Variables) :-
    step(Instruction, Stack0, Variables0, Stack1, Variables1),
    run(Instructions, Stack1, Variables1, Stack, Variables).

:- pred step(instruction::in, list(int)::in, list(variable)::in, list(int)::out, list(variable)::out) is semidet.
step(push(X), Stack, Variables, [X | Stack], Variables).
step(load(Name), Stack, Variables, [X | Stack], Variables) :- value(Variables, Name, X).
step(store(Name), [X | Stack], Variables0, Stack, Variables) :- set(Variables0, Name, X, Variables).
step(add, [Y, X | Stack], Variables, [X + Y | Stack], Variables).
step(subtract, [Y, X | Stack], Variables, [X - Y | Stack], Variables).
step(multiply, [Y, X | Stack], Variables, [X * Y | Stack], Variables).
step(remainder, [Y, X | Stack], Variables, [X mod Y | Stack], Variables).
step(while(Test, Body), Stack0, Variables0, Stack, Variables) :-
    run(Test, Stack0, Variables0, [X | Stack1], Variables1),
    ( if X = 0 then
        Stack = Stack1,
        Variables = Variables1
    else
        run(Body, Stack1, Variables1, Stack2, Variables2),
        step(while(Test, Body), Stack2, Variables2, Stack, Variables)
    ).

:- pred value(list(variable)::in, string::in, int::out) is semidet.
value([variable(Other, Y) | Variables], Name, X) :-
    ( if Other = Name then
        X = Y
    else
        value(Variables, Name, X)
    ).

:- pred set(list(variable)::in, string::in, int::in, list(variable)::out) is det.
set([], Name, X, [variable(Name, X)]).
set([variable(Other, Y) | Variables0], Name, X, Variables) :-
    ( if Other = Name then
        Variables = [variable(Name, X) | Variables0]
    else
        set(Variables0, Name, X, Others),
        Variables = [variable(Other, Y) | Others]
    ).
