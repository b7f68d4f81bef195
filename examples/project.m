:- module project.
:- import_module int, list.

% Plans a project: which tasks wait for which, when each can begin, and which must not be late.
:- type task ---> survey ; dig ; pour ; frame ; roof ; wire ; paint.

:- pred tasks(list(task)::out) is det.
tasks([survey, dig, pour, frame, roof, wire, paint]).

% How many days a task takes, and the tasks that have to be done before it begins.
:- pred task(task::in, int::out, list(task)::out) is det.
task(survey, 1, []).
task(dig, 2, [survey]).
task(pour, 3, [dig]).
task(frame, 5, [survey]).
task(roof, 2, [pour, frame]).
task(wire, 4, [frame]).
task(paint, 2, [roof, wire]).

% The day at whose beginning a task can begin, counted from 0.
:- pred earliest(task::in, int::out) is det.
earliest(Task, Day) :-
    task(Task, _, Needed),
    last_end(Needed, 0, Day).

% The last day on which one of the tasks ends, or the day given, where that is later.
:- pred last_end(list(task)::in, int::in, int::out) is det.
last_end([], Last, Last).
last_end([Task | Tasks], Before, Last) :-
    earliest(Task, Begin),
    task(Task, Days, _),
    ( if Begin + Days > Before then Between = Begin + Days else Between = Before ),
    last_end(Tasks, Between, Last).

:- pred length_of_project(int::out) is det.
length_of_project(Days) :-
    tasks(Tasks),
    last_end(Tasks, 0, Days).

% The day at whose beginning a task has to begin, so that the project is not late: those that wait for it are.
:- pred latest(task::in, int::out) is det.
latest(Task, Day) :-
    tasks(Tasks),
    length_of_project(End),
    first_begin(Tasks, Task, End, Before),
    task(Task, Days, _),
    Day = Before - Days.

% The first day on which one of these tasks that needs the task has to begin.
:- pred first_begin(list(task)::in, task::in, int::in, int::out) is det.
first_begin([], _, First, First).
first_begin([Other | Others], Task, Before, First) :-
    ( if needs(Other, Task), latest(Other, Day), Day < Before then
        first_begin(Others, Task, Day, First)
    else
        first_begin(Others, Task, Before, First)
    ).

:- pred needs(task, task).
:- mode needs(in, in) is semidet.
:- mode needs(in, out) is nondet.
needs(Task, Needed) :-
    task(Task, _, AllNeeded),
    member(Needed, AllNeeded).

% How many days a task may be late. One with none is critical.
:- pred slack(task::in, int::out) is det.
slack(Task, Days) :-
    earliest(Task, Early),
    latest(Task, Late),
    Days = Late - Early.

:- pred critical(task::out) is nondet.
critical(Task) :-
    tasks(Tasks),
    member(Task, Tasks),
    slack(Task, 0).

% Each order in which one worker can do the tasks, one after the other.
:- pred order(list(task)::out) is nondet.
order(Order) :-
    tasks(Tasks),
    order_of(Tasks, [], Order).

:- pred order_of(list(task)::in, list(task)::in, list(task)::out) is nondet.
order_of(Left, Done, Order) :-
    ( if Left = [] then
        Order = []
    else
        append(Before, [Task | Behind], Left),
        not ( needs(Task, Needed), not member(Needed, Done) ),
        append(Before, Behind, Others),
        order_of(Others, [Task | Done], Rest),
        Order = [Task | Rest]
    ).
