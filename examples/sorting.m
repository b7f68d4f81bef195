:- module sorting.
:- import_module int, list.

% Four ways to sort a list of integers, and what a sorted list is.

:- pred sorted(list(int)::in) is semidet.
sorted([]).
sorted([X | Xs]) :- sorted_behind(X, Xs).

:- pred sorted_behind(int::in, list(int)::in) is semidet.
sorted_behind(_, []).
sorted_behind(X, [Y | Ys]) :- X =< Y, sorted_behind(Y, Ys).

% By insertion.
:- pred insertion_sort(list(int)::in, list(int)::out) is det.
insertion_sort([], []).
insertion_sort([X | Xs], Sorted) :- insertion_sort(Xs, Others), insert(X, Others, Sorted).

:- pred insert(int::in, list(int)::in, list(int)::out) is det.
insert(X, [], [X]).
insert(X, [Y | Ys], Zs) :-
    ( if X =< Y then
        Zs = [X, Y | Ys]
    else
        insert(X, Ys, Others),
        Zs = [Y | Others]
    ).

% By halves.
:- pred merge_sort(list(int)::in, list(int)::out) is det.
merge_sort([], []).
merge_sort([X | Xs], Sorted) :-
    (
        Xs = [],
        Sorted = [X]
    ;
        Xs = [Y | Ys],
        halve([X, Y | Ys], Some, Others),
        ( merge_sort(Some, SortedSome) & merge_sort(Others, SortedOthers) ),
        merge(SortedSome, SortedOthers, Sorted)
    ).

:- pred halve(list(T)::in, list(T)::out, list(T)::out) is det.
halve([], [], []).
halve([X | Xs], [X | Ys], Zs) :- halve(Xs, Zs, Ys).

:- pred merge(list(int)::in, list(int)::in, list(int)::out) is det.
merge([], Ys, Ys).
merge([X | Xs], [], [X | Xs]).
merge([X | Xs], [Y | Ys], Zs) :-
    ( if X =< Y then
        merge(Xs, [Y | Ys], Others),
        Zs = [X | Others]
    else
        merge([X | Xs], Ys, Others),
        Zs = [Y | Others]
    ).

% By the first element.
:- pred quick_sort(list(int)::in, list(int)::out) is det.
quick_sort([], []).
quick_sort([X | Xs], Sorted) :-
    split(X, Xs, Small, Large),
    ( quick_sort(Small, SortedSmall) & quick_sort(Large, SortedLarge) ),
    append(SortedSmall, [X | SortedLarge], Sorted).

:- pred split(int::in, list(int)::in, list(int)::out, list(int)::out) is det.
split(_, [], [], []).
split(X, [Y | Ys], Small, Large) :-
    split(X, Ys, Smaller, Larger),
    ( if Y < X then
        Small = [Y | Smaller],
        Large = Larger
    else
        Small = Smaller,
        Large = [Y | Larger]
    ).

% By trying each order.
:- pred permutation_sort(list(int)::in, list(int)::out) is nondet.
permutation_sort(Xs, Sorted) :- permutation(Xs, Sorted), sorted(Sorted).

:- pred permutation(list(T)::in, list(T)::out) is multi.
permutation([], []).
permutation([X | Xs], Ys) :- permutation(Xs, Zs), append(Front, Back, Zs), append(Front, [X | Back], Ys).

% So many integers that look as if they were in no order.
:- pred mixed(int::in, int::in, list(int)::out) is det.
mixed(Count, Seed, Xs) :-
    ( if Count =< 0 then
        Xs = []
    else
        Next = (Seed * 1103515245 + 12345) mod 2147483648,
        mixed(Count - 1, Next, Others),
        Xs = [Next mod 1000 | Others]
    ).
