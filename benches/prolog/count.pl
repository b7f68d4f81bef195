% A loop of calls and nothing else.

main :- count(900000, 0, Total), write('Total = '), write(Total), nl.

count(N, Sum, Total) :-
    (   N =:= 0 ->
        Total = Sum
    ;   Fewer is N - 1,
        Next is Sum + N,
        count(Fewer, Next, Total)
    ).
