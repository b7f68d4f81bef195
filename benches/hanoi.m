:- module hanoi.
:- import_module int.

% The towers of Hanoi, where each move is counted.

:- type peg ---> left ; middle ; right.

:- pred moves(int::in, int::out) is det.
moves(Disks, Count) :- hanoi(Disks, left, right, middle, 0, Count).

:- pred hanoi(int::in, peg::in, peg::in, peg::in, int::in, int::out) is det.
hanoi(Disks, From, To, Spare, Before, Count) :-
    ( if Disks = 0 then
        Count = Before
    else
        hanoi(Disks - 1, From, Spare, To, Before, Half),
        hanoi(Disks - 1, Spare, To, From, Half + 1, Count)
    ).
