% The number below a bound whose way to 1 is the longest, where n is followed by n / 2 or 3 n + 1.

main :-
    longest(8000, Number, Length),
    write('Number = '), write(Number), write(', Length = '), write(Length), nl.

longest(Bound, Number, Length) :- longest_from(1, Bound, 1, 0, Number, Length).

longest_from(N, Bound, Best, Most, Number, Length) :-
    (   N >= Bound ->
        Number = Best,
        Length = Most
    ;   way(N, 0, Steps),
        Next is N + 1,
        (   Steps > Most ->
            longest_from(Next, Bound, N, Steps, Number, Length)
        ;   longest_from(Next, Bound, Best, Most, Number, Length)
        )
    ).

way(N, Before, Steps) :-
    (   N =:= 1 ->
        Steps = Before
    ;   N mod 2 =:= 0 ->
        Half is N // 2,
        Next is Before + 1,
        way(Half, Next, Steps)
    ;   More is 3 * N + 1,
        Next is Before + 1,
        way(More, Next, Steps)
    ).
