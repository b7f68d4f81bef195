:- module parcels.
:- import_module int.

% What two parcels weigh, and what three weigh.
:- pred two(int::in, int::in, int::out) is det.
two(First, Second, Total) :- Total = First + Second.

:- pred three(int::in, int::in, int::in, int::out) is det.
tree(First, Second, Third, Total) :-
    two(First, Second, Both),
    Total = Both + Third.
