:- module queens.
:- import_module int, list.

% All boards of N queens, none of which attacks another: choices, negation and backtracking.

:- pred queens(int::in, list(int)::out) is nondet.
queens(N, Board) :- place(N, N, [], Board).

:- pred place(int::in, int::in, list(int)::in, list(int)::out) is nondet.
place(Columns, N, Placed, Board) :-
    ( if Columns = 0 then
        Board = Placed
    else
        between_rows(1, N, Row),
        not attacked(Row, 1, Placed),
        place(Columns - 1, N, [Row | Placed], Board)
    ).

:- pred between_rows(int::in, int::in, int::out) is nondet.
between_rows(Low, High, Row) :-
    Low =< High,
    (
        Row = Low
    ;
        between_rows(Low + 1, High, Row)
    ).

:- pred attacked(int::in, int::in, list(int)::in) is semidet.
attacked(Row, Distance, [Other | Others]) :-
    (
        Row = Other
    ;
        Row = Other + Distance
    ;
        Row = Other - Distance
    ;
        attacked(Row, Distance + 1, Others)
    ).
