:- module lights.
:- import_module int, list.
:- type light ---> red ; amber ; green.
:- pred next(light::in, light::out) is det.
next(red, green).
next(amber, red).
next(green, amber).
:- pred may_go(light::in) is semidet.
may_go(green).
:- pred slows(light::out) is multi.
slows(amber).
slows(red).
:- pred after(int::in, light::in, light::out) is det.
after(N, Light, Then) :-
    ( if N =< 0 then Then = Light else next(Light, Soon), after(N - 1, Soon, Then) ).
:- pred first_red(list(light)::in, int::in, int::out) is semidet.
first_red([Light | Lights], Place, Found) :-
    ( Light = red, Found = Place
    ; Light = amber, first_red(Lights, Place + 1, Found)
    ; Light = green, first_red(Lights, Place + 1, Found)
    ).
:- pred both(light::in, light::in, light::out, light::out) is det.
both(A, B, NextA, NextB) :- next(A, NextA) & next(B, NextB).
