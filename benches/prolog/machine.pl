% An interpreter of a small stack machine with named variables and a loop.

main :- squares(20000, Sum), write('Sum = '), write(Sum), nl.

% Of the squares from 1 to Count the sum of what is left over by a division by 7.
squares(Count, Sum) :-
    program(Count, Program),
    run(Program, [], [], _, Variables),
    value(Variables, sum, Sum).

program(Count, [push(Count), store(n), push(0), store(sum), while(Test, Body)]) :-
    Test = [load(n)],
    Body = [
        load(sum), load(n), load(n), multiply, push(7), remainder, add, store(sum),
        load(n), push(1), subtract, store(n)
    ].

run([], Stack, Variables, Stack, Variables).
run([Instruction | Instructions], Stack0, Variables0, Stack, Variables) :-
    step(Instruction, Stack0, Variables0, Stack1, Variables1),
    run(Instructions, Stack1, Variables1, Stack, Variables).

step(push(X), Stack, Variables, [X | Stack], Variables).
step(load(Name), Stack, Variables, [X | Stack], Variables) :- value(Variables, Name, X).
step(store(Name), [X | Stack], Variables0, Stack, Variables) :- set(Variables0, Name, X, Variables).
step(add, [Y, X | Stack], Variables, [Z | Stack], Variables) :- Z is X + Y.
step(subtract, [Y, X | Stack], Variables, [Z | Stack], Variables) :- Z is X - Y.
step(multiply, [Y, X | Stack], Variables, [Z | Stack], Variables) :- Z is X * Y.
step(remainder, [Y, X | Stack], Variables, [Z | Stack], Variables) :- Z is X mod Y.
step(while(Test, Body), Stack0, Variables0, Stack, Variables) :-
    run(Test, Stack0, Variables0, [X | Stack1], Variables1),
    (   X =:= 0 ->
        Stack = Stack1,
        Variables = Variables1
    ;   run(Body, Stack1, Variables1, Stack2, Variables2),
        step(while(Test, Body), Stack2, Variables2, Stack, Variables)
    ).

value([variable(Other, Y) | Variables], Name, X) :-
    (   Other == Name ->
        X = Y
    ;   value(Variables, Name, X)
    ).

set([], Name, X, [variable(Name, X)]).
set([variable(Other, Y) | Variables0], Name, X, Variables) :-
    (   Other == Name ->
        Variables = [variable(Name, X) | Variables0]
    ;   Variables = [variable(Other, Y) | Others],
        set(Variables0, Name, X, Others)
    ).
