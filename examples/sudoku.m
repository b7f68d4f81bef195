:- module sudoku.
:- import_module int, list.

% Sudokus of four rows, four columns and four boxes, in each of which each of the digits 1 to 4 stands once. A square is
% given as the list of its rows, with a 0 for each cell that is open.
:- type place ---> place(int, int).
:- type cell ---> cell(place, int).

% Each way to fill the open cells.
:- pred solution(list(list(int))::in, list(list(int))::out) is nondet.
solution(Given, Solution) :-
    read_rows(Given, 0, [], Known, [], Open),
    agree(Known),
    fill(Open, Known, Filled),
    written_rows(0, Filled, Solution).

% Sorts the cells of the rows into those that are known and the places of those that are open, the last ones first.
:- pred read_rows(list(list(int))::in, int::in, list(cell)::in, list(cell)::out, list(place)::in, list(place)::out) is det.
read_rows([], _, Known, Known, Open, Open).
read_rows([Row | Rows], Number, KnownBefore, Known, OpenBefore, Open) :-
    read_row(Row, place(Number, 0), KnownBefore, KnownBetween, OpenBefore, OpenBetween),
    read_rows(Rows, Number + 1, KnownBetween, Known, OpenBetween, Open).

:- pred read_row(list(int)::in, place::in, list(cell)::in, list(cell)::out, list(place)::in, list(place)::out) is det.
read_row([], _, Known, Known, Open, Open).
read_row([Digit | Digits], Place, KnownBefore, Known, OpenBefore, Open) :-
    Place = place(Row, Column),
    ( if Digit = 0 then
        read_row(Digits, place(Row, Column + 1), KnownBefore, Known, [Place | OpenBefore], Open)
    else
        read_row(Digits, place(Row, Column + 1), [cell(Place, Digit) | KnownBefore], Known, OpenBefore, Open)
    ).

% A square whose given digits clash has no solution, also where no cell is open.
:- pred agree(list(cell)::in) is semidet.
agree([]).
agree([Cell | Cells]) :-
    fits(Cell, Cells),
    agree(Cells).

:- pred fits(cell::in, list(cell)::in) is semidet.
fits(Cell, Cells) :- not ( member(Other, Cells), clash(Cell, Other) ).

% Two cells clash that have one digit and share a row, a column or a box.
:- pred clash(cell::in, cell::in) is semidet.
clash(cell(place(Row, Column), Digit), cell(place(OtherRow, OtherColumn), Digit)) :-
    (
        Row = OtherRow
    ;
        Column = OtherColumn
    ;
        Row // 2 = OtherRow // 2,
        Column // 2 = OtherColumn // 2
    ).

% Digits are tried where they stand, so a clash ends a try before the cells behind it are filled.
:- pred fill(list(place)::in, list(cell)::in, list(cell)::out) is nondet.
fill([], Cells, Cells).
fill([Place | Places], Before, After) :-
    member(Digit, [1, 2, 3, 4]),
    Cell = cell(Place, Digit),
    fits(Cell, Before),
    fill(Places, [Cell | Before], After).

:- pred written_rows(int::in, list(cell)::in, list(list(int))::out) is semidet.
written_rows(Row, Cells, Rows) :-
    ( if Row = 4 then
        Rows = []
    else
        digit(Row, 0, Cells, A),
        digit(Row, 1, Cells, B),
        digit(Row, 2, Cells, C),
        digit(Row, 3, Cells, D),
        written_rows(Row + 1, Cells, Others),
        Rows = [[A, B, C, D] | Others]
    ).

:- pred digit(int::in, int::in, list(cell)::in, int::out) is semidet.
digit(Row, Column, [cell(Place, Digit) | Cells], Found) :-
    ( if Place = place(Row, Column) then Found = Digit else digit(Row, Column, Cells, Found) ).

% A puzzle is good where it has one solution and no other.
:- pred good(list(list(int))::in) is semidet.
good(Given) :-
    solution(Given, One),
    not ( solution(Given, Other), Other \= One ).
