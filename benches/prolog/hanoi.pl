% The towers of Hanoi, where each move is counted.

main :- moves(18, Count), write('Count = '), write(Count), nl.

moves(Disks, Count) :- hanoi(Disks, left, right, middle, 0, Count).

hanoi(Disks, From, To, Spare, Before, Count) :-
    (   Disks =:= 0 ->
        Count = Before
    ;   Fewer is Disks - 1,
        hanoi(Fewer, From, Spare, To, Before, Half),
        Moved is Half + 1,
        hanoi(Fewer, Spare, To, From, Moved, Count)
    ).
