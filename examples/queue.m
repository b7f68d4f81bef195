:- module queue.

% Who stands first in a queue of numbers.
:- pred front(list(int)::in, int::out) is semidet.
front([First | _], First).
