% Merge sort of integers in no order: a list is dealt into two, each is sorted, and the two are merged.

main :- sort_mixed(25000, Sum), write('Sum = '), write(Sum), nl.

sort_mixed(Count, Sum) :- mixed(Count, 1, Xs), mergesort(Xs, Sorted), checksum(Sorted, 1, 0, Sum).

mergesort([], []).
mergesort([X | Xs], Sorted) :-
    (   Xs = [] ->
        Sorted = [X]
    ;   deal([X | Xs], Evens, Odds),
        mergesort(Evens, As),
        mergesort(Odds, Bs),
        merge(As, Bs, Sorted)
    ).

deal([], [], []).
deal([X | Xs], [X | Evens], Odds) :- deal(Xs, Odds, Evens).

merge([], Bs, Bs).
merge([A | As], Bs, Merged) :-
    (   Bs = [] ->
        Merged = [A | As]
    ;   Bs = [B | Others],
        (   A =< B ->
            Merged = [A | Rest],
            merge(As, Bs, Rest)
        ;   Merged = [B | Rest],
            merge([A | As], Others, Rest)
        )
    ).

% So many integers that look as if they were in no order.
mixed(Count, Seed, Xs) :-
    (   Count =:= 0 ->
        Xs = []
    ;   Next is (Seed * 16807) mod 2147483647,
        Fewer is Count - 1,
        Xs = [Next | Others],
        mixed(Fewer, Next, Others)
    ).

% A sum that depends on the order too.
checksum([], _, Sum, Sum).
checksum([X | Xs], Place, Before, Sum) :-
    Next is Place + 1,
    Behind is (Before + Place * X) mod 1000000007,
    checksum(Xs, Next, Behind, Sum).
