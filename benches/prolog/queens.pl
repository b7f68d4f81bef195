% All boards of N queens, none of which attacks another: choices, negation and backtracking.

main :-
    (   queens(9, [1, 3, 6 | Rows]),
        write('Rows = '), write(Rows), nl,
        fail
    ;   true
    ).

queens(N, Board) :- place(N, N, [], Board).

place(Columns, N, Placed, Board) :-
    (   Columns =:= 0 ->
        Board = Placed
    ;   between_rows(1, N, Row),
        \+ attacked(Row, 1, Placed),
        Fewer is Columns - 1,
        place(Fewer, N, [Row | Placed], Board)
    ).

between_rows(Low, High, Row) :-
    Low =< High,
    (   Row = Low
    ;   Next is Low + 1,
        between_rows(Next, High, Row)
    ).

attacked(Row, Distance, [Other | Others]) :-
    (   Row =:= Other
    ;   Row =:= Other + Distance
    ;   Row =:= Other - Distance
    ;   Farther is Distance + 1,
        attacked(Row, Farther, Others)
    ).
