(* The benchmark's algorithms over trees, driven by lines on standard input:
   `load LABEL TASK TREE..` keeps arguments (prefix form, 1 a node, 0 a leaf); `run LABEL TURNS` answers a check of the value. *)
type tree = Leaf | Node of tree * tree

let rec ack m n =
  match m with
  | Leaf -> Node (Leaf, n)
  | Node (_, m') -> (
      match n with
      | Leaf -> ack m' (Node (Leaf, Leaf))
      | Node (_, n') -> ack m' (ack m n'))

let rec less_or_equal a b =
  match a with
  | Leaf -> true
  | Node (_, a') -> (
      match b with Leaf -> false | Node (_, b') -> less_or_equal a' b')

let rec insert x l =
  match l with
  | Leaf -> Node (x, Leaf)
  | Node (y, rest) -> if less_or_equal x y then Node (x, l) else Node (y, insert x rest)

let rec sort l = match l with Leaf -> Leaf | Node (x, rest) -> insert x (sort rest)
let rec mirror t = match t with Leaf -> Leaf | Node (l, r) -> Node (mirror r, mirror l)
let rec reverse l acc = match l with Leaf -> acc | Node (x, rest) -> reverse rest (Node (x, acc))

let rec turn a b c d e f g h =
  match a with Leaf -> b | Node (_, a') -> turn b c d e f g h a'

let call task args =
  match (task, args) with
  | "ack", [ m; n ] -> ack m n
  | "sort", [ l ] -> sort l
  | "mirror", [ t ] -> mirror t
  | "reverse", [ l; acc ] -> reverse l acc
  | "turn", [ a; b; c; d; e; f; g; h ] -> turn a b c d e f g h
  | _ -> failwith ("no task " ^ task)

let parse text =
  let stack = ref [] in
  for i = String.length text - 1 downto 0 do
    match (text.[i], !stack) with
    | '0', s -> stack := Leaf :: s
    | _, l :: r :: s -> stack := Node (l, r) :: s
    | _ -> failwith "no tree"
  done;
  List.hd !stack

let check tree =
  let rec walk sum = function
    | [] -> sum
    | Leaf :: rest -> walk (((sum * 31) + 1) mod 1000003) rest
    | Node (l, r) :: rest -> walk (((sum * 31) + 2) mod 1000003) (l :: r :: rest)
  in
  walk 0 [ tree ]

let () =
  let loaded = Hashtbl.create 8 in
  try
    while true do
      match String.split_on_char ' ' (input_line stdin) with
      | "load" :: label :: task :: trees -> Hashtbl.replace loaded label (task, List.map parse trees)
      | [ "run"; label; turns ] ->
          let task, args = Hashtbl.find loaded label in
          let value = ref Leaf in
          for _ = 1 to int_of_string turns do
            value := call task args
          done;
          Printf.printf "%d\n%!" (check !value)
      | _ -> failwith "no such line"
    done
  with End_of_file -> ()
