#############################################################################
##
##  answering.g: how words are answered. The program that answers those of a
##  system is started at the first of them, and stays: it reads what is stored,
##  or makes the structure, once
##
#############################################################################

# The systems whose program runs, the one that was started first at the head, and how
# many may run.
if not IsBound( KbAnswering ) then
  KbAnswering := [];
fi;
KbMostAnswering := 8;

# Ends the program that answers the words of a system, if it runs. The next word
# starts another one.
KbStop := function( system )
  if IsBound( system!.stream ) then
    CloseStream( system!.stream );
    Unbind( system!.stream );
    Unbind( system!.asked );
    KbAnswering := Filtered( KbAnswering, other -> not IsIdenticalObj( other, system ) );
  fi;
end;

# Starts it. Where GAP can't talk with a running program, there is none.
KbStart := function( system )
  local stream;
  if Length( KbAnswering ) >= KbMostAnswering then
    KbStop( KbAnswering[1] );
  fi;
  KbProgram := KbAbsolute( KbProgram );
  stream := InputOutputLocalProcess( system!.folder, KbShell(), Concatenation(
    [ "-c", "exec \"$0\" \"$@\" 2>told", KbProgram ], system!.reducing ) );
  if stream <> fail then
    system!.stream := stream;
    Add( KbAnswering, system );
  fi;
end;

# The answer to one line of a program that runs, or `fail` where it ends instead. A
# printed word has no blank, and other lines have one, as that of a limit.
KbAnswer := function( stream, line )
  local answer;
  if IsEndOfStream( stream ) then
    return fail;
  fi;
  WriteLine( stream, line );
  answer := ReadLine( stream );
  if answer = fail or ' ' in answer then
    return fail;
  fi;
  return NormalizedWhitespace( answer );
end;

# The answers to lines of words, or `fail` where one of them has none. A call that
# was interrupted leaves `asked` bound: then an answer may still come that isn't to
# these lines, and another program is started.
KbAnswersRunning := function( system, lines )
  local answers, line, answer;
  if IsBound( system!.asked ) then
    KbStop( system );
  fi;
  if not IsBound( system!.stream ) then
    KbStart( system );
  fi;
  system!.asked := true;
  answers := [];
  for line in lines do
    answer := fail;
    if IsBound( system!.stream ) then
      answer := KbAnswer( system!.stream, line );
    fi;
    if answer = fail then
      KbStop( system );
      return fail;
    fi;
    Add( answers, answer );
  od;
  Unbind( system!.asked );
  return answers;
end;

# The answers to lines of words: by the program that runs, and where that has none
# by a run of its own, which shows why. Stops with an error where the program has no
# answer.
KbAnswers := function( system, lines )
  local answers;
  answers := KbAnswersRunning( system, lines );
  if answers <> fail then
    return answers;
  fi;
  lines := List( lines, line -> Concatenation( line, "\n" ) );
  return KbLines( KbAnswered( KbRun( system.folder, system.reducing, Concatenation( lines ) ), system ).out );
end;
