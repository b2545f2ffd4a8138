_FSA := rec(
  isFSA := true,
  alphabet := rec(
    type := "product",
    size := 48,
    arity := 2,
    padding := _,
    base := rec(
      type := "identifiers",
      size := 6,
      format := "dense",
      names := [x1,x2,x3,x4,x5,x6]
    )
  ),
  states := rec(
    type := "simple",
    size := 2
  ),
  flags := ["DFA","minimized","BFS","accessible","trim"],
  initial := [1],
  accepting := [2],
  table := rec(
    format := "dense deterministic",
    numTransitions := 7,
    transitions := [
      [0,0,0,2,0,0,0,0,0,0,0,2,0,0,0,0,0,0,0,2,0,0,0,0,0,0,0,2,2,0,0,0,0,0,0,0,2,0,0,0,0,0,0,0,2,0,0,0],
      [0,0,0,0,0,0,0,0,0,0,0,0,0,0,0,0,0,0,0,0,0,0,0,0,0,0,0,0,0,0,0,0,0,0,0,0,0,0,0,0,0,0,0,0,0,0,0,0]
    ]
  )
);
