% Quicksort of integers in no order, by the first element. What is sorted stands in front of a rest, so nothing is appended.

main :- sort_mixed(30000, Sum), write('Sum = '), write(Sum), nl.

sort_mixed(Count, Sum) :- mixed(Count, 1, Xs), quicksort(Xs, [], Sorted), checksum(Sorted, 1, 0, Sum).

quicksort([], Rest, Rest).
quicksort([X | Xs], Rest, Sorted) :-
    partition(Xs, X, Small, Large),
    quicksort(Large, Rest, Behind),
    quicksort(Small, [X | Behind], Sorted).

partition([], _, [], []).
partition([Y | Ys], X, Small, Large) :-
    (   Y < X ->
        Small = [Y | Smaller],
        partition(Ys, X, Smaller, Large)
    ;   Large = [Y | Larger],
        partition(Ys, X, Small, Larger)
    ).

% So many integers that look as if they were in no order.
mixed(Count, Seed, Xs) :-
    (   Count =:= 0 ->
        Xs = []
    ;   Next is (Seed * 16807) mod 2147483647,
        Fewer is Count - 1,
        Xs = [Next | Others],
        mixed(Fewer, Next, Others)
    ).

% A sum that depends on the order too.
checksum([], _, Sum, Sum).
checksum([X | Xs], Place, Before, Sum) :-
    Next is Place + 1,
    Behind is (Before + Place * X) mod 1000000007,
    checksum(Xs, Next, Behind, Sum).
