:- module nrev.
:- import_module int, list.

% Naive reverse: a list of 30 integers is reversed again and again, by appending each element behind the others.

:- pred reversals(int::in, list(int)::in, list(int)::out) is det.
reversals(Times, Xs, Reversed) :-
    ( if Times = 0 then
        Reversed = Xs
    else
        nrev(Xs, Ys),
        reversals(Times - 1, Ys, Reversed)
    ).

:- pred nrev(list(int)::in, list(int)::out) is det.
nrev([], []).
nrev([X | Xs], Ys) :- nrev(Xs, Zs), app(Zs, [X], Ys).

:- pred app(list(int)::in, list(int)::in, list(int)::out) is det.
app([], Ys, Ys).
app([X | Xs], Ys, [X | Zs]) :- app(Xs, Ys, Zs).

:- pred numbers(int::in, int::in, list(int)::out) is det.
numbers(Low, High, Xs) :-
    ( if Low > High then
        Xs = []
    else
        numbers(Low + 1, High, Others),
        Xs = [Low | Others]
    ).
