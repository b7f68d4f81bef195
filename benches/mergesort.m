:- module mergesort.
:- import_module int, list.

% Merge sort of integers in no order: a list is dealt into two, each is sorted, and the two are merged.

:- pred sort_mixed(int::in, int::out) is det.
sort_mixed(Count, Sum) :- mixed(Count, 1, Xs), mergesort(Xs, Sorted), checksum(Sorted, 1, 0, Sum).

:- pred mergesort(list(int)::in, list(int)::out) is det.
mergesort([], []).
mergesort([X | Xs], Sorted) :-
    ( if Xs = [] then
        Sorted = [X]
    else
        deal([X | Xs], Evens, Odds),
        mergesort(Evens, As),
        mergesort(Odds, Bs),
        merge(As, Bs, Sorted)
    ).

:- pred deal(list(int)::in, list(int)::out, list(int)::out) is det.
deal([], [], []).
deal([X | Xs], [X | Evens], Odds) :- deal(Xs, Odds, Evens).

:- pred merge(list(int)::in, list(int)::in, list(int)::out) is det.
merge([], Bs, Bs).
merge([A | As], Bs, Merged) :-
    (
        Bs = [],
        Merged = [A | As]
    ;
        Bs = [B | Others],
        ( if A =< B then
            merge(As, Bs, Rest),
            Merged = [A | Rest]
        else
            merge([A | As], Others, Rest),
            Merged = [B | Rest]
        )
    ).

% So many integers that look as if they were in no order.
:- pred mixed(int::in, int::in, list(int)::out) is det.
mixed(Count, Seed, Xs) :-
    ( if Count = 0 then
        Xs = []
    else
        Next = (Seed * 16807) mod 2147483647,
        mixed(Count - 1, Next, Others),
        Xs = [Next | Others]
    ).

% A sum that depends on the order too.
:- pred checksum(list(int)::in, int::in, int::in, int::out) is det.
checksum([], _, Sum, Sum).
checksum([X | Xs], Place, Before, Sum) :- checksum(Xs, Place + 1, (Before + Place * X) mod 1000000007, Sum).
