% Naive reverse: a list of 30 integers is reversed again and again, by appending each element behind the others.

main :- numbers(1, 30, Xs), reversals(1501, Xs, [First | _]), write('First = '), write(First), nl.

reversals(Times, Xs, Reversed) :-
    (   Times =:= 0 ->
        Reversed = Xs
    ;   nrev(Xs, Ys),
        Fewer is Times - 1,
        reversals(Fewer, Ys, Reversed)
    ).

nrev([], []).
nrev([X | Xs], Ys) :- nrev(Xs, Zs), app(Zs, [X], Ys).

app([], Ys, Ys).
app([X | Xs], Ys, [X | Zs]) :- app(Xs, Ys, Zs).

numbers(Low, High, Xs) :-
    (   Low > High ->
        Xs = []
    ;   Next is Low + 1,
        Xs = [Low | Others],
        numbers(Next, High, Others)
    ).
