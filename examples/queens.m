:- module queens.
:- import_module int, list.

% Queens on a board of N rows, none of which attacks another. A board is the list of its columns: the row of each queen,
% from the last column to the first.

:- pred queens(int::in, list(int)::out) is nondet.
queens(N, Board) :- place(N, N, [], Board).

% The queens of so many more columns, in front of those that stand already.
:- pred place(int::in, int::in, list(int)::in, list(int)::out) is nondet.
place(Columns, N, Placed, Board) :-
    ( if Columns = 0 then
        Board = Placed
    else
        between(1, N, Row),
        not attacked(Row, 1, Placed),
        place(Columns - 1, N, [Row | Placed], Board)
    ).

:- pred between(int::in, int::in, int::out) is nondet.
between(Low, High, X) :-
    Low =< High,
    (
        X = Low
    ;
        between(Low + 1, High, X)
    ).

% A queen in this row is attacked by one that stands so many columns away, or farther.
:- pred attacked(int::in, int::in, list(int)::in) is semidet.
attacked(Row, Distance, [Other | Others]) :-
    (
        Row = Other
    ;
        Row = Other + Distance
    ;
        Row = Other - Distance
    ;
        attacked(Row, Distance + 1, Others)
    ).

:- pred solvable(int::in) is semidet.
solvable(N) :- queens(N, _).

% The rows in which the queen of the first column can stand.
:- pred starts(int::in, int::out) is nondet.
starts(N, Row) :-
    between(1, N, Row),
    some [Board] place(N - 1, N, [Row], Board).

% A board as pairs of a column and a row.
:- type square ---> square(int, int).
:- pred squares(list(int)::in, int::in, list(square)::out) is det.
squares([], _, []).
squares([Row | Rows], Column, [square(Column, Row) | Squares]) :- squares(Rows, Column + 1, Squares).
