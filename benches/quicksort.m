:- module quicksort.
:- import_module int, list.

% Quicksort of integers in no order, by the first element. What is sorted stands in front of a rest, so nothing is appended.

:- pred sort_mixed(int::in, int::out) is det.
sort_mixed(Count, Sum) :- mixed(Count, 1, Xs), quicksort(Xs, [], Sorted), checksum(Sorted, 1, 0, Sum).

:- pred quicksort(list(int)::in, list(int)::in, list(int)::out) is det.
quicksort([], Rest, Rest).
quicksort([X | Xs], Rest, Sorted) :-
    partition(Xs, X, Small, Large),
    quicksort(Large, Rest, Behind),
    quicksort(Small, [X | Behind], Sorted).

:- pred partition(list(int)::in, int::in, list(int)::out, list(int)::out) is det.
partition([], _, [], []).
partition([Y | Ys], X, Small, Large) :-
    ( if Y < X then
        partition(Ys, X, Smaller, Large),
        Small = [Y | Smaller]
    else
        partition(Ys, X, Small, Larger),
        Large = [Y | Larger]
    ).

% So many integers that look as if they were in no order.
:- pred mixed(int::in, int::in, list(int)::out) is det.
mixed(Count, Seed, Xs) :-
    ( if Count = 0 then
        Xs = []
    else
        Next = (Seed * 16807) mod 2147483647,
        mixed(Count - 1, Next, Others),
        Xs = [Next | Others]
    ).

% A sum that depends on the order too.
:- pred checksum(list(int)::in, int::in, int::in, int::out) is det.
checksum([], _, Sum, Sum).
checksum([X | Xs], Place, Before, Sum) :- checksum(Xs, Place + 1, (Before + Place * X) mod 1000000007, Sum).
