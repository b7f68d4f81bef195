:- module collatz.
:- import_module int.

% The number below a bound whose way to 1 is the longest, where n is followed by n / 2 or 3 n + 1.

:- pred longest(int::in, int::out, int::out) is det.
longest(Bound, Number, Length) :- longest_from(1, Bound, 1, 0, Number, Length).

:- pred longest_from(int::in, int::in, int::in, int::in, int::out, int::out) is det.
longest_from(N, Bound, Best, Most, Number, Length) :-
    ( if N >= Bound then
        Number = Best,
        Length = Most
    else
        way(N, 0, Steps),
        ( if Steps > Most then
            longest_from(N + 1, Bound, N, Steps, Number, Length)
        else
            longest_from(N + 1, Bound, Best, Most, Number, Length)
        )
    ).

:- pred way(int::in, int::in, int::out) is det.
way(N, Before, Steps) :-
    ( if N = 1 then
        Steps = Before
    else if N mod 2 = 0 then
        way(N // 2, Before + 1, Steps)
    else
        way(3 * N + 1, Before + 1, Steps)
    ).
