"""Scripts made by hand. WITHIN and RUNS meet the premises of demand 3; OUTSIDE each break one."""

WITHIN = """
(define f (lambda (x) (f x))) (f 7)
(f x)
(lambda (c) (if (p c) (q c) (r c)))
((lambda (p) ((lambda (a b) b) 7 (let ((y p)) y))) 8)
(lambda (x) (lambda () x))
((lambda (x) (begin (set! x 1) x)) 2)
(7 1)
(begin)
(define x 1) x
(define x 1) (set! x 2) x
(set! x 2)
x
(if #f 1 2) (if 3 4 5)
(if (begin) 4 5)
(let () 1)
(let ((x 1) (y 2)) (let ((z y)) (begin (set! x z) x)))
(let ((x 1)) ((lambda () x)))
(let ((x 1)) (let ((y 2)) ((lambda (z) (lambda () (begin x y z))) 3)))
((let ((x 1)) (let ((y 2)) ((lambda (z) (lambda () y)) 3))))
(let ((f (lambda (x) (lambda (y) x)))) ((f 1) 2))
((((lambda (x) (lambda (y) (lambda (z) (begin z y x)))) 1) 2) 3)
((lambda (x y) (let ((a x) (b y)) (let ((c b)) ((lambda (d) a) c)))) 1 2)
((lambda (x) (let ((y (let ((z x)) z))) (begin (set! y 5) y))) 1)
((lambda (x) (let ((x1 1)) (if x1 x 2))) 3)
((lambda (f) (f 1)) (lambda (x) x))
((lambda (f) (f 1 2)) (lambda (x) x))
((lambda (f) (f)) 1)
((lambda () (begin)))
((lambda () (begin 1 2 #f)))
((lambda (x) ((lambda (x) x) (begin (set! x 2) x))) 1)
((lambda (x) (let ((f (lambda () (let ((x 1)) x)))) (begin (set! x 2) (f)))) 3)
(let ((x 1)) (begin (set! x 2) (let ((y x)) (begin (set! y 3) (set! x y) x))))
(define loop (lambda (n) (if n (loop #f) 9))) (loop 1)
(define even (lambda (n) (if n (odd #f) 1))) (define odd (lambda (n) (if n (even #f) 2))) (even 3)
(define rec (lambda (n m) (if n ((lambda (v) v) (rec #f m)) m))) (rec 1 2)
(define make (lambda (x) (lambda (y) x))) (define k (make 1)) (k 2)
(define twice (lambda (f x) (f (f x)))) (twice (lambda (y) y) 5)
(define f (lambda (x) (let ((y x)) (if y (f #f) (lambda () y))))) ((f 1))
(define f (lambda (x) (let ((y 1) (z 2)) (let ((w z)) (g w x))))) (define g (lambda (a b) (begin (set! a b) a))) (f 4)
(define f (lambda (x) (begin (set! x 2) (f x)))) (f 1)
(define x 1) (define f (lambda (x) x)) (f x)
(define x 1) (define f (lambda () x)) (begin (set! x 2) (f))
(define f 1) (define f (lambda () 2)) (f)
(define f (lambda () 2)) (define f 1) (f)
(begin (define f (lambda () (g))) (define g (lambda () 5))) (f)
(define f (lambda () (g))) (f)
(define f (lambda (a) (f))) (f 1)
(define x (let ((y 3)) (lambda () y))) (x)
(define x (begin 1 2)) (begin x)
(let ((f (lambda (x) x)) (g (lambda (y) 4))) (f (g 1)))
((lambda (a b c) (begin (set! b a) (set! c b) c)) 1 2 3)
((lambda (a) ((lambda (b) ((lambda (c) (begin a b c)) 3)) 2)) 1)
((if #f (lambda () 1) (lambda () 2)))
((begin (set! f 1) (lambda () 2)))
(define f (lambda () 1)) (let ((g f)) (let ((h (g))) h))
(define d (begin (set! d 1)))
(define acc 0) (define add (lambda (x) (set! acc x))) (begin (add 3) (add 4) acc)
(let ((x 1)) ((lambda (y) (let ((z y)) (lambda () (begin x z)))) 2))
((lambda (g) (let ((r (g 1))) (g r))) (lambda (x) (let ((y x)) (begin (set! y 2) y))))
((lambda (x) (begin ((lambda (y) (set! y 1)) x) x)) 5)
((lambda (x) (if x (let ((t 1)) ((lambda (u) (if u t x)) #f)) 0)) 6)
((lambda (x y) (begin (set! x (set! y 1)) y)) 2 3)
(let ((a (let ((b 1)) b)) (c (let ((d 2)) d))) (begin (set! a c) a))
((lambda (a) (7 a)) 1)
((lambda (a) (let ((b (lambda () a))) (let ((c (lambda () (b)))) (c)))) 9)
((let ((y (lambda (x) x))) y) 1)
((lambda (p) ((let ((y p)) (lambda (x z) y)) 1 2)) 5)
((lambda (p) (begin ((let ((y p)) (begin (set! y 3) (lambda (x) x))) 1) p)) 5)
(define f (lambda (a) (begin (f1 a) (if a (f #f) a)))) (define f1 (lambda (b) b)) (f 1)
((lambda (g) (begin (g 1) (g 2) 3)) (lambda (x) (let ((y x)) y)))
(and 1 (and)) (and 1 2 3) (and 1 #f 3) (and (and #f) 2)
(when 1 2 3) (unless #f 2 3) (unless 1 2) (when #f 2 3)
(if (unless 1 2) 3 4)
(if (and 1 (when 2)) 3 4)
(and x 1)
(when 1 x)
((lambda (x) (and x (begin (set! x 2) x))) 1)
((lambda (x) (when x (set! x #f) (unless x (set! x 3) x))) 1)
((lambda (f) ((and f) 1)) (lambda (x) (and (and x))))
((lambda (f) ((and 1 f) 1)) (lambda (x) (when x x)))
((lambda (x y) (let ((a (and x y)) (b (when x y))) (and a b))) 1 2)
(let ((x (and 1 2))) (when x (let ((y (unless #f x))) ((lambda () (and x y))))))
(define loop (lambda (n) (and n (loop #f)))) (loop 1)
(define loop (lambda (n) (when n (loop #f)))) (loop 1)
(define loop (lambda (n) (unless n 1 (loop 2)))) (loop #f)
(define loop (and (lambda (n m) (when (and n m) (and (loop m #f)))))) (loop 1 2)
(define rec (lambda (n) (if (and n (rec #f)) 1 2))) (rec 1)
(define keep (lambda (x) (and x (lambda () (unless #f x))))) ((keep 5))
(and (define f (lambda (x) (and x)))) (and (begin (and (define g f)) (and (g 1))))
(define f (lambda (a) (begin (when (f1 a) (f1 a)) (and (f1 a) (f1 #f))))) (define f1 (lambda (b) b)) (f 1)
""".strip().splitlines()

# Order 7's runs, with how each ends by its statement: moments, status, kind of the value and number, as model.py has them
RUNS = """
1 2 1 0 (and)
2 2 1 1 (and 5)
2 2 2 0 (and #f 5)
5 2 1 5 (if (and 5 #f 7) 8 9)
2 2 3 0 (when #f 5)
2 2 3 0 (when 5)
2 2 3 0 (unless 5)
4 2 1 3 (if (when #f 5) 6 7)
7 2 1 5 ((lambda (x) x) (and 5))
4 3 0 0 ((and) 1)
""".strip().splitlines()

OUTSIDE = """
((lambda (x) (let ((f (lambda () x))) (begin (set! x 2) (f)))) 3)
((lambda (x) ((lambda () (begin (define x 1) x)))) 2)
""".strip().splitlines()

# document 01's scripts for refusals, and others that name a refusal: its number and record come first
REFUSED = """
9 3 (lambda (x) (let ((x 1)) x))
12 5 (lambda (x) (lambda () (begin (lambda () x) (set! x 1))))
11 1 (let ((x 1)) (lambda () (set! x 2)))
9 5 (let ((x (lambda (y y) 1)) (x 2)) x)
0 0 (lambda (x) (lambda () (begin (set! x 1) (lambda () x))))
12 6 (lambda (x) (lambda (y) (begin (lambda () x) (lambda () (set! x 1)) x)))
11 1 (let ((x 1)) (and (lambda () (set! x 2))))
12 5 (lambda (x) (lambda () (when (lambda () x) (set! x 1))))
9 4 (lambda (x) (and (let ((x 1)) x)))
0 0 (lambda (x) (unless x (set! x 1) (lambda () (and x))))
""".strip().splitlines()

# trees with an inner define, for the claims about tail position
INNER = """
(lambda (f) (begin (define x (f 1))))
(lambda (f) (define x (f 1)))
(lambda (f) (begin 1 (define g (lambda () (g 2)))))
(lambda (f) (if 1 (begin (define x (f 1)) (f x)) (let ((y (f 2))) (f y))))
(lambda (f) (begin (set! f (f 1)) ((begin (define x 1) f) (f x))))
(when 1 (define f (lambda (g) (and (g) (f g)))) (f f))
(lambda (f) (unless (f) (f) (define g (and (lambda () (when (g) (g))))) (and (g))))
(lambda (f) (and (define g (lambda () (g))) (define h (f)) ((and g))))
""".strip().splitlines()

# slips that a trial has to notice: name, then (file, text, text in its place) for each edit
SLIPS = [
    ("the head's slot before the arguments", [("pass/specs/Visit.antt", "height = f.height + k; counter = f.counter; function = f.function; direct = false }\n\nabbrev pub is_nil", "height = f.height; counter = f.counter; function = f.function; direct = false }\n\nabbrev pub is_nil")]),
    ("a layer for a let inside a lambda", [("pass/specs/Lambda.antt", "let t = open_layer (at_bottom s) s in", "let t = open_layer true s in"), ("pass/specs/Visit.antt", "close_let (at_bottom s) n", "close_let true n")]),
    ("every child of a begin in tail position", [("pass/specs/Visit.antt", "tail = last && f.tail;", "tail = f.tail;")]),
    ("a define's body in tail position", [("pass/specs/Visit.antt", "define_flags f = record { tail = false;", "define_flags f = record { tail = f.tail;")]),
    ("arguments in tail position", [("pass/specs/Visit.antt", "argument_flags f = record { tail = false;", "argument_flags f = record { tail = f.tail;")]),
    ("Normal on every call", [("pass/specs/Visit.antt", "call_kind true false k = TailCall", "call_kind true false k = Normal"), ("pass/specs/Visit.antt", "call_kind true true k = SelfTailCall k", "call_kind true true k = Normal")]),
    ("a let name's slot its place alone", [("pass/specs/Lambda.antt", "local_entry (base + j)", "local_entry j")]),
    ("a lambda made one depth too deep", [("pass/specs/Lambda.antt", "      depth = depth s;", "      depth = suc (depth s);")]),
    ("the frame of depth 1 copied too", [("lockstep/specs/Slot.antt", "take (d - 1)", "take d")]),
    ("a test in tail position", [("pass/specs/Visit.antt", "(enter_children LocallyDefinedFunction (cores ts) (visit t (not_tail f) s))", "(enter_children LocallyDefinedFunction (cores ts) (visit t (same_tail f) s))")]),
    ("what follows a test in no tail position", [("pass/specs/Visit.antt", "visit_children ts (in_begin f) (enter_children", "visit_children ts (in_begin (not_tail f)) (enter_children")]),
    ("the last of an and in no tail position", [("pass/specs/Visit.antt", "in_and alone f = record { tail = f.tail;", "in_and alone f = record { tail = false;")]),
    ("a false child of an and is its value", [("r7rs/specs/Steps.antt", "give v (kand e nil k) b m = cond (O.is_false v) (give (O.constant 0 true) k b m)", "give v (kand e nil k) b m = cond (O.is_false v) (give v k b m)")]),
    ("a test alone is the value of its when", [("r7rs/specs/Steps.antt", "give v (kwhen q nil k) b m = give O.unit k b m", "give v (kwhen q nil k) b m = give v k b m")]),
    ("an unless that runs as a when", [("r7rs/specs/Machine.antt", "runs false f = f", "runs false f = not f")]),
    ("a set! that marks nothing", [("pass/specs/Visit.antt", "read classes x (mutate x.name (visit e", "read classes x ((visit e")]),
]
