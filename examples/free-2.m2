_FSA := rec(
  isFSA := true,
  alphabet := rec(
    type := "product",
    size := 24,
    arity := 2,
    padding := _,
    base := rec(
      type := "identifiers",
      size := 4,
      format := "dense",
      names := [a,A,b,B]
    )
  ),
  states := rec(
    type := "simple",
    size := 6
  ),
  flags := ["DFA","minimized","BFS","accessible","trim"],
  initial := [1],
  accepting := [3],
  table := rec(
    format := "dense deterministic",
    numTransitions := 24,
    transitions := [
      [2,0,0,0,3,0,4,0,0,0,0,0,5,0,0,0,0,0,6,0,0,3,0,0],
      [2,0,0,0,3,0,0,0,0,0,0,0,5,0,0,0,0,0,6,0,0,0,0,0],
      [0,0,0,0,0,0,0,0,0,0,0,0,0,0,0,0,0,0,0,0,0,0,0,0],
      [0,0,0,0,0,0,4,0,0,0,0,0,5,0,0,0,0,0,6,0,0,3,0,0],
      [2,0,0,0,3,0,4,0,0,0,0,0,5,0,0,0,0,0,0,0,0,3,0,0],
      [2,0,0,0,3,0,4,0,0,0,0,0,0,0,0,0,0,0,6,0,0,3,0,0]
    ]
  )
);
