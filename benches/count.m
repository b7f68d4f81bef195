:- module count.
:- import_module int.

% A loop of calls and nothing else.

:- pred count(int::in, int::in, int::out) is det.
count(N, Sum, Total) :-
    ( if N = 0 then
        Total = Sum
    else
        count(N - 1, Sum + N, Total)
    ).
