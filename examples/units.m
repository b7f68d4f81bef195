:- module units.
:- import_module int.

:- pred feet_to_inches(int::in, int::out) is det.
feet_to_inches(Feet, Inches) :-
    Double = Feet + Feet,
    Triple = Double + Feet,
    Six = Triple + Triple,
    Inches = Six + Six.

:- pred height(int::in, int::in, int::out) is det.
height(Feet, Inches, Total) :-
    feet_to_inches(Feet, Whole),
    Total = Whole + Inches.

:- pred rope(int::in, int::in, int::in, int::out) is det.
rope(Yards, Feet, Inches, Total) :-
    Double = Yards + Yards,
    Triple = Double + Yards,
    All = Triple + Feet,
    height(All, Inches, Total).

:- pred sixty_of(int::in, int::out) is det.
sixty_of(Units, Parts) :-
    Double = Units + Units,
    Triple = Double + Units,
    Six = Triple + Triple,
    Twelve = Six + Six,
    Fifteen = Twelve + Triple,
    Thirty = Fifteen + Fifteen,
    Parts = Thirty + Thirty.

:- pred minutes(int::in, int::in, int::out) is det.
minutes(Hours, Minutes, Total) :-
    sixty_of(Hours, Whole),
    Total = Whole + Minutes.

:- pred seconds(int::in, int::in, int::in, int::out) is det.
seconds(Hours, Minutes, Seconds, Total) :-
    minutes(Hours, Minutes, InMinutes),
    Double = InMinutes + InMinutes,
    Triple = Double + InMinutes,
    Six = Triple + Triple,
    Twelve = Six + Six,
    Fifteen = Twelve + Triple,
    Thirty = Fifteen + Fifteen,
    Sixty = Thirty + Thirty,
    Total = Sixty + Seconds.
