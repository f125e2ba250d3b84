#!/usr/bin/env python3
"""Tries the translator of `wanda-fun` (fun/): what is refused and where, and what small modules come to.

    bench/fun_tests.py [-v] [-k WORD]     # -k: the tests alone whose names have the word

The values are compared with those that the program has in Haskell, written by hand. They are found by an evaluator of
systems in this file, with each step of the translation and without all of them. Neither GHC nor wanda is wanted.
"""

import pathlib
import sys
import textwrap
import time
import unittest

sys.dont_write_bytecode = True
sys.path.insert(0, str(pathlib.Path(__file__).resolve().parent.parent))

import fun  # noqa: E402 (the path comes first)
from fun import express, messages  # noqa: E402

ALL_STEPS = fun.Options()
NO_STEPS = fun.Options(conditions=False, copies=False, patterns=False, unfold=False)


class Machine:
    """Evaluates closed terms of a system by need: a left side is matched from the left, arguments as far as it asks."""

    def __init__(self, translation):
        self.rules = {}
        for rule in translation.rules:
            left, right = rule.text.split("} ", 1)[1].rstrip(";").split(" => ")
            left, right = express.Reader(left, {}).term(), express.Reader(right, {}).term()
            variables = {one.split(":")[0].strip() for one in rule.text.split("{", 1)[1].split("}")[0].split(",")}
            self.rules.setdefault(left.head, []).append((left.arguments, right, variables))

    def head_form(self, tree):
        """Takes steps at the top of a term, in place, until a constructor or a function stands there."""
        while True:
            if isinstance(tree.head, express.Bound):
                if not tree.arguments:
                    return tree
                names, body = tree.head.names, tree.head.body
                count = min(len(names), len(tree.arguments))
                result = self.put(body, dict(zip(names, tree.arguments)))
                if count < len(names):
                    result = express.Tree(express.Bound(names[count:], result))
                self.become(tree, result, tree.arguments[count:])
            elif not self.step(tree):
                return tree

    def become(self, tree, result, rest):
        """Makes a term another one, with further arguments."""
        tree.head, tree.arguments = result.head, list(result.arguments) + list(rest)

    def step(self, tree):
        """Takes a step by a rule at the top; returns whether one fits."""
        for patterns, right, variables in self.rules.get(tree.head, ()):
            if len(patterns) > len(tree.arguments):
                return False
            table = {}
            if all(self.matches(one, other, variables, table) for one, other in zip(patterns, tree.arguments)):
                self.become(tree, self.put(right, table), tree.arguments[len(patterns):])
                return True
        return False

    def matches(self, pattern, tree, variables, table):
        """Whether a pattern matches a term; what its variables stand for comes into the table."""
        if pattern.head in variables:
            table[pattern.head] = tree
            return True
        self.head_form(tree)
        if tree.head != pattern.head or len(tree.arguments) != len(pattern.arguments):
            return False
        return all(self.matches(one, other, variables, table) for one, other in zip(pattern.arguments, tree.arguments))

    def put(self, tree, table):
        """A term with terms for its variables, which are shared."""
        if not table:
            table = {}
        arguments = [self.put(one, table) for one in tree.arguments]
        if isinstance(tree.head, express.Bound):
            inner = {name: value for name, value in table.items() if name not in tree.head.names}
            return express.Tree(express.Bound(tree.head.names, self.put(tree.head.body, inner)), arguments)
        if tree.head in table:
            value = table[tree.head]
            return value if not arguments else express.Tree(value.head, list(value.arguments) + arguments)
        return express.Tree(tree.head, arguments)

    def text(self, tree):
        """The normal form of a term, as a system writes it."""
        self.head_form(tree)
        if not tree.arguments:
            return str(tree.head)
        return "(" + " ".join([str(tree.head)] + [self.text(one) for one in tree.arguments]) + ")"


def value_of(translation, machine, name):
    """What an expression of the module comes to, as the program writes it."""
    symbol = next(one.symbol for one in translation.functions if one.name == name)
    return translation.expression(machine.text(express.Tree(symbol)))


HEAD = "module M where\nimport Prelude hiding (length, take, drop, replicate)\nimport Nat\n"

# A name, declarations, and expressions with their values.
VALUES = [
    ("overlapping", """
        data T = A | B | C T T | D Nat deriving (Eq)
        f :: T -> T -> Nat
        f A _ = 0
        f _ A = 1
        f (C x _) (C _ y) = f x y
        f (D 2) (D n) = n
        f (D n) (D 2) = n + 10
        f _ _ = 7
        g (C (C a b) c) = 1
        g (C a (C b c)) = 2
        g _ = 3
        """, [("f A B", "0"), ("f B A", "1"), ("f (C B A) (C A A)", "1"), ("f (D 2) (D 5)", "5"), ("f (D 4) (D 2)", "14"),
              ("f (D 4) (D 3)", "7"), ("f B (D 1)", "7"), ("[g (C (C A A) A), g (C A (C A A)), g (C A A), g A]", "[1, 2, 3, 3]")]),
    ("guards", """
        f :: Nat -> [Nat] -> Nat
        f n xs | n > 2, (x : _) <- xs = x
               | Just m <- lookUp n, let { k = m + 1 }, k < 3 = k
        f n (x : _) | x == n = 20
        f 0 _ = 9
        f _ _ = 8
        lookUp 0 = Just 1
        lookUp 1 = Just 5
        lookUp _ = Nothing
        """, [("f 3 [4]", "4"), ("f 3 []", "8"), ("f 0 [1]", "2"), ("f 1 [1]", "20"), ("f 1 []", "8")]),
    ("where", """
        f :: Nat -> [Nat] -> [Nat]
        f n xs = go xs
          where
            go [] = [m]
            go (y : ys)
              | big = y : rest
              | otherwise = rest
              where
                rest = go ys
                big = y > limit k
                  where k = m + 1
            m = n + 1
            limit a = a + n
        twice :: a -> (a, a)
        twice x = both (\\y -> y) where both h = (h x, h x)
        poly = (same 1, same True) where same z = pick z [z]
                                         pick a [] = a
                                         pick _ (b : _) = b
        """, [("f 0 [1, 2, 3, 4]", "[3, 4, 1]"), ("f 1 [9]", "[9, 2]"), ("twice True", "(True, True)"), ("poly", "(1, True)")]),
    ("bindings", """
        split :: [a] -> ([a], [a])
        split (x : y : r) = let (as, bs) = split r in (x : as, y : bs)
        split xs = (xs, [])
        f b = let { (x, Just y) = g b; z = x + y } in if b then z else 0
        g True = (1, Just 2)
        g False = (1, Nothing)
        shared n = let m = n * n in m + m
        power :: Nat -> Nat -> Nat
        power b n | n == 0 = 1
                  | even' n = root * root
                  | otherwise = b * power b (n - 1)
          where root = power b (half n)
        half (Succ (Succ n)) = Succ (half n)
        half _ = 0
        even' 0 = True
        even' 1 = False
        even' (Succ (Succ n)) = even' n
        """, [("split [1, 2, 3]", "([1, 3], [2])"), ("f True", "3"), ("f False", "0"), ("shared 3", "18"), ("power 2 4", "16")]),
    ("operators", """
        infixr 5 :+
        infixl 6 <+>
        infix 4 `same`
        data E = L Nat | E :+ E
        (<+>) :: Nat -> Nat -> Nat
        a <+> b = a * 2 + b
        x `same` y = x == y
        eval (L n) = n
        eval (a :+ b) = eval a <+> eval b
        (f .: g) x y = f (g x y)
        """, [("1 <+> 2 <+> 3", "11"), ("eval (L 1 :+ L 2 :+ L 3)", "9"), ("1 + 2 `same` 3", "True"),
              ("map (subtract' 1) [3, 4]", "[2, 3]"), ("map (5 -) [3, 4]", "[2, 1]"), ("(Succ .: (+)) 1 2", "4"),
              ("zipWith (:) [1] [[2]]", "[[1, 2]]")]),
    ("local operators", """
        infixr 5 :+
        infixl 4 -.-
        data E = L Nat | E :+ E
        fold (<+>) z = go
          where go [] = z
                go (x : xs) = x <+> go xs
        apply :: (a -> b -> c) -> a -> b -> c
        (f `apply` x) y = f x y
        L a :+ L b -.- n = a - b - n
        _ -.- n = n
        minus' x = x <-> x <-> 1
          where infixr 3 <->
                a <-> b = a - b
        """, [("fold (-) 0 [5, 3, 1]", "3"), ("apply (-) 3 1", "2"), ("(L 5 :+ L 2) -.- 1", "2"), ("L 5 -.- 1", "1"), ("minus' 3", "1")]),
    ("fixities in scope", """
        infixl 6 `cmp`
        a `cmp` b = a * 2 + b
        right x = x <> x <> 1 where { infixr 3 <>; a <> b = a * 2 + b }
        left x = x <> x <> 1 where a <> b = a * 2 + b
        bound (+) x = x + 1 * 2
        before x | 2 `cmp` 1 == x = 2 `cmp` 1 `cmp` x
                 | otherwise = 0
          where infixr 5 `cmp`
                a `cmp` b = a - b
        parameter cmp x = x `cmp` 1 * 2
        sameLevel x = x +++ x -|- 1
          where infixr 5 +++, -|-
                a +++ b = a + b
                a -|- b = a - b
        inLet x = (let infixl 1 -.; a -. b = a - b in x + 1 -. 1 + 1) `cmp` 1
        guarded x | let { infixr 5 -.; a -. b = a - b }, y <- x -. 2 -. 1 = y
        section x = (1 -. 2 .-) x
          where { infixl 4 .-; infixl 5 -.; a .- b = a * 2 + b; a -. b = a + b }
        shadowed x = go x + (x `op` 2 `op` 3)
          where infixr 5 `op`
                op a b = a - b
                go y = y `op` 3 `op` 1 where op a b = a - b
        """, [("1 `cmp` 2 `cmp` 3", "11"), ("right 2", "9"), ("left 2", "13"), ("bound (-) 3", "4"), ("before 1", "2"),
              ("parameter (-) 3", "4"), ("sameLevel 3", "5"), ("inLet 5", "9"), ("guarded 5", "4"), ("section 4", "10"),
              ("shadowed 6", "8")]),
    ("any fields", """
        data T = A | B Nat Bool | C T
        f B {} = 1
        f (C A {}) = 2
        f (C (B{})) = 3
        f _ = 4
        """, [("map f [A, B 0 True, C A, C (B 1 False), C (C A)]", "[4, 1, 2, 3, 4]")]),
    ("classes", """
        data S = P | Q Nat | R S [Nat] deriving (Eq, Ord, Show)
        data Pair' a b = Pair' a b deriving (Eq, Ord)
        sortList :: Ord a => [a] -> [a]
        sortList = foldr insert []
          where insert x [] = [x]
                insert x (y : ys) | x <= y = x : y : ys
                                  | otherwise = y : insert x ys
        """, [("sortList [R P [2], Q 3, P, R P [1, 5], Q 1]", "[P, Q 1, Q 3, R P [1, 5], R P [2]]"), ("compare (Q 1) (R P [])", "LT"),
              ("compare (1, True) (1, False)", "GT"), ("max [1, 2] [1]", "[1, 2]"), ("min (Just 1) Nothing", "Nothing"),
              ("Pair' 1 True == Pair' 1 True", "True"), ("Left 1 < (Right True :: Either Nat Bool)", "True"), ("R P [] /= R P []", "False"),
              ("sortList [True, False]", "[False, True]"), ("elem (Q 2) [P, Q 2]", "True")]),
    ("functions", """
        type Parser a = [Nat] -> Maybe (a, [Nat])
        item :: Nat -> Parser Nat
        item n (x : xs) | n == x = Just (n, xs)
        item _ _ = Nothing
        orElse, andThen' :: Parser Nat -> Parser Nat -> Parser Nat
        orElse p q ts = case p ts of
          Nothing -> q ts
          found -> found
        andThen' p q ts = maybe Nothing (\\(x, r) -> maybe Nothing (\\(y, s) -> Just (x + y, s)) (q r)) (p ts)
        newtype F = F (Nat -> Nat)
        run (F f) = f
        compose' :: [F] -> Nat -> Nat
        compose' = foldr (\\(F f) g -> f . g) id
        builder :: [Nat] -> [Nat] -> [Nat]
        builder = foldr (\\x k ys -> k (x : ys)) id
        """, [("orElse (item 1) (item 2) [2, 3]", "Just (2, [3])"), ("andThen' (item 1) (item 2) [1, 2]", "Just (3, [])"),
              ("compose' [F Succ, F (* 2)] 3", "7"), ("builder [1, 2] []", "[2, 1]"), ("map (run (F (+ 1))) [1]", "[2]"),
              ("uncurry (+) (1, 2)", "3"), ("flip (-) 1 3", "2"), ("curry fst 1 True", "1"), ("either Succ (const 0) (Left 4)", "5"),
              ("(foldr (.) id [Succ, (* 2)]) 4", "9"), ("map ($ 3) [Succ, (+ 2)]", "[4, 5]")]),
    ("synonyms", """
        data E = P | Q
        type Result = Either E
        type Also = Result
        type Many = []
        type Pairs a = Many (a, a)
        first' :: Pairs a -> Also a
        first' [] = Left P
        first' ((x, _) : _) = Right x
        whole :: Result Nat -> (Either E) Nat
        whole = either Left (Right . Succ)
        """, [("map whole [Left Q, Right 1]", "[Left Q, Right 2]"), ("first' [(1, 2)]", "Right 1"), ("(first' [] :: Result Nat)", "Left P")]),
    ("arity", """
        add :: Nat -> Nat -> Nat
        add = \\x -> \\y -> x + y
        pick :: Bool -> Nat -> Nat
        pick b = if b then Succ else \\n -> n
        sums = foldr (+) 0
        apply :: (a -> b) -> a -> b
        apply f = f
        loop :: [Nat] -> Nat
        loop = foldr step 0 where step x acc = x + acc
        """, [("add 1 2", "3"), ("pick True 1", "2"), ("pick False 1", "1"), ("sums [1, 2]", "3"), ("apply (apply Succ) 1", "2"),
              ("loop [1, 2, 3]", "6"), ("map (add 1) [1]", "[2]")]),
    ("recursion", """
        data Tree a = Leaf | Node (Tree a) a (Tree a)
        data Rose = Rose Nat [Rose]
        insert :: Ord a => a -> Tree a -> Tree a
        insert x Leaf = Node Leaf x Leaf
        insert x t@(Node l y r) = case compare x y of
          LT -> Node (insert x l) y r
          EQ -> t
          GT -> Node l y (insert x r)
        toList :: Tree a -> [a]
        toList t = go t []
          where go Leaf acc = acc
                go (Node l x r) acc = go l (x : go r acc)
        isEven, isOdd :: Nat -> Bool
        isEven 0 = True
        isEven (Succ n) = isOdd n
        isOdd 0 = False
        isOdd (Succ n) = isEven n
        total (Rose n rs) = n + sum' (map total rs)
        sum' = foldl (+) 0
        """, [("toList (foldr insert Leaf [3, 1, 2, 1])", "[1, 2, 3]"), ("toList (insert True (insert False Leaf))", "[False, True]"),
              ("isEven 7", "False"), ("total (Rose 1 [Rose 2 [], Rose 3 [Rose 4 []]])", "10")]),
    ("numbers", """
        fact :: Nat -> Nat
        fact n = if n == 0 then 1 else n * fact (n - 1)
        sign n | n < 2 = 0
               | 4 <= n && not (n == 5) = 1
               | otherwise = 2
        gcd' :: Nat -> Nat -> Nat
        gcd' x y | y == 0 = x
                 | x < y = gcd' y x
                 | otherwise = gcd' (x - y) y
        """, [("fact 3", "6"), ("map sign [0, 1, 2, 3, 4, 5, 6]", "[0, 0, 2, 2, 1, 2, 1]"), ("gcd' 6 4", "2"), ("3 - 5", "0"),
              ("[take 2 [1, 2, 3], drop 2 [1, 2, 3], replicate 2 0]", "[[1, 2], [3], [0, 0]]"), ("length [True, False]", "2"),
              ("(2 + 3 * 2, 7 - 2 - 1)", "(8, 4)"), ("[2 >= 2, 2 > 2, 1 < 2, 2 /= 2]", "[True, False, True, False]")]),
    ("prelude", "dummy = 0\n", [
        ("filter (> 1) [1, 2, 3]", "[2, 3]"), ("foldl (-) 9 [1, 2]", "6"), ("reverse [1, 2, 3]", "[3, 2, 1]"),
        ("concat [[1], [], [2]]", "[1, 2]"), ("concatMap (\\x -> [x, x]) [1, 2]", "[1, 1, 2, 2]"), ("zip [1, 2] [True]", "[(1, True)]"),
        ("takeWhile (< 2) [1, 2, 1]", "[1]"), ("dropWhile (< 2) [1, 2, 1]", "[2, 1]"), ("all (< 2) [1, 2]", "False"),
        ("any (< 2) [1, 2]", "True"), ("(and [True, False], or [True, False])", "(False, True)"), ("null [0]", "False"),
        ("(head [1, 2], tail [1, 2])", "(1, [2])"), ("notElem 1 [2]", "True"), ("snd (1, 2)", "2"), ("not True || True && False", "False")]),
    ("layout", """
        f x = case x of { 0 -> 1; _ -> 2 }
        g x = let a = x; b = a in a + b
        h x = (case x of
                 0 -> a
                 _ -> b)
          where { a = 5
                ; b = 6 }
        k x
          = if x == 0
              then 1
              else let y = x
                       z = y
                    in z
        m xs = [ case xs of [] -> 0; _ -> 1, 2 ]
        """, [("map f [0, 1]", "[1, 2]"), ("g 2", "4"), ("(h 0, h 1)", "(5, 6)"), ("(k 0, k 3)", "(1, 3)"), ("m [1]", "[1, 2]")]),
]

# A name, a module (behind HEAD where it has no first line of its own), the place, and a part of the sentence.
REFUSALS = [
    ("character", "f = 'a'", "4:5", "use a data type with a constructor for each"),
    ("string", 'f = "abc"', "4:5", "use a data type with a constructor for each"),
    ("large number", "f = 21", "4:5", "the only numbers are 0 to 20 of `Nat`"),
    ("negative number", "f = -1", "4:5", "the only numbers are 0 to 20 of `Nat`"),
    ("fraction", "f = 1.5", "4:5", "the only numbers are 0 to 20 of `Nat`"),
    ("number without Nat", "module M where\nf = 1", "2:5", "write `import Nat`"),
    ("class", "class C a where\n  c :: a", "4:1", "classes are no part of the language"),
    ("instance", "data T = A\ninstance Eq T where\n  A == A = True", "5:1", "instances are no part of the language"),
    ("record", "data P = P { x :: Nat }", "4:12", "records are no part of the language"),
    ("record pattern", "data P = P Nat\nf P { x = y } = y", "5:5", "records are no part of the language"),
    ("do", "f = do\n  x", "4:5", "`do` is no part of the language"),
    ("comprehension", "f xs = [x | x <- xs]", "4:8", "use `map`, `filter` and `concatMap`"),
    ("range", "f = [1..5]", "4:5", "write a function that makes the list"),
    ("seq", "f x = seq x x", "4:7", "`seq` is no part of the language"),
    ("bang pattern", "f !x = x", "4:3", "bang patterns are no part of the language"),
    ("lazy pattern", "f ~(x, y) = x", "4:3", "lazy patterns are no part of the language"),
    ("GADT", "data T where\n  A :: T", "4:8", "write the constructors behind `=`"),
    ("import", "module M where\nimport Data.List\nf = sort", "2:1", "the modules that are known are Prelude and Nat"),
    ("qualified name", "f = Nat.length", "4:5", "qualified names are no part of the language"),
    ("functions compared", "f :: (Nat -> Nat) -> Bool\nf g = g == g", "5:9", "functions can't be compared"),
    ("recursive pattern", "f = let (a, b) = (b, a) in a", "4:9", "a pattern binding that uses its own variables"),
    ("pattern at the top", "(a, b) = (Zero, Zero)", "4:1", "a pattern binding at the top"),
    ("uneven equations", "f Zero = Zero\nf x y = y", "5:1", "equations of one function have equally many"),
    ("undefined", "f = undefined", "4:5", "`undefined` is no part of the language"),
    ("error", "f x = error x", "4:7", "`error` is no part of the language"),
    ("polymorphic recursion", "f :: Nat -> a -> Nat\nf Zero _ = Zero\nf (Succ n) x = f n (x, x)", "5:1", "ever larger types"),
    ("polymorphic recursion through fst", "f :: a -> a\nf x = fst (f (x, x))", "5:1", "`f` is used at ever larger types"),
    ("nested data", "data N a = E | C a (N (a, a))\nf :: N a -> Nat\nf E = Zero\nf (C _ _) = 1", "4:6", "ever larger types"),
    ("name", "foldup x = x\ng = fuldup Zero", "5:5", "`fuldup` is not in scope: is `foldup` meant?"),
    ("constructor", "f (Jus x) = x", "4:4", "`Jus` is not in scope: is `Just` meant?"),
    ("type name", "data Tree = Leaf\nf :: Tre -> Nat\nf x = Zero", "5:6", "the type `Tre` is not in scope: is `Tree` meant?"),
    ("type of a right side", "f :: Nat -> Bool\nf x = x", "5:7", "`x` (bound in line 5) has the type `Nat`, and the signature of `f` wants `Bool`"),
    ("type of an argument", "f :: Bool -> Bool\nf x = x\ng = f Zero", "6:7", "`Zero` has the type `Nat`, and argument 1 of `f` (defined in line 5) wants `Bool`"),
    ("too many arguments", "f :: Nat -> Nat\nf x = x\ng = f Zero Zero", "6:12", "takes 1 argument and no more"),
    ("type of a branch", "f b = if b then Zero else True", "4:27", "has the type `Bool`, and the first branch in line 4 wants `Nat`"),
    ("type of an alternative", "f m = case m of\n  Nothing -> Zero\n  Just x -> [x]", "6:13", "the first alternative in line 5"),
    ("type of a pattern", "f :: Nat -> Nat\nf [] = Zero", "5:3", "the pattern `[]` has the type"),
    ("endless type", "f x = x x", "4:9", "no type is both"),
    ("general type", "f :: a -> a\nf x = Zero", "5:7", "has the type `Nat`, and the signature of `f` wants `a`"),
    ("local signature", "f :: [a] -> [a]\nf xs = go xs\n  where\n    go :: [a] -> [a]\n    go ys = xs", "8:13", "and the signature of `go` wants"),
    ("missing context", "f :: a -> a -> Bool\nf x y = x == y", "5:11", "write it into the context of the signature"),
    ("missing instance", "data T = A | B\nf :: T -> T -> Bool\nf x y = x == y", "6:11", "write `deriving (Eq)`"),
    ("type that nothing tells", "f :: Bool\nf = [] == []", "5:8", "give a type by `::`"),
    ("signature within", "f xs = go xs\n  where\n    go :: a -> a\n    go y = xs", "7:12", "and the signature of `go` wants"),
    ("ambiguous type", "f = [] == []", "4:8", "give a type by `::`"),
    ("Int", "f :: Int -> Int\nf x = x", "4:6", "the numbers are those of `Nat`"),
    ("kind", "f :: Maybe -> Nat\nf x = Zero", "4:6", "`Maybe` has 1 type argument, and none is given"),
    ("synonym as a type", "type R = Either Nat\nf :: R -> Nat\nf x = Zero", "5:6", "`R` has 1 type argument, and none is given"),
    ("synonym in part", "type P a b = (a, b)\ntype Q = P Nat", "5:10", "`P` has 2 type arguments, and 1 are given"),
    ("fields", "f (Just) = Zero", "4:4", "`Just` has 1 field, and 0 stand in this pattern"),
    ("name twice", "f x x = x", "4:5", "`x` stands twice in the patterns"),
    ("function twice", "f x = x\ng x = x\nf y = y", "6:1", "`f` is defined in line 4, too"),
    ("signature alone", "f :: Nat", "4:1", "has a signature and no equation here"),
    ("Prelude's name", "map f xs = xs", "4:1", "write `import Prelude hiding (map)`"),
    ("Prelude's type", "data Maybe a = N | J a", "4:6", "write `import Prelude hiding (Maybe(..))`"),
    ("unknown of the Prelude", "f xs = lookup xs", "4:8", "define it, and hide it by `import Prelude hiding (lookup)`"),
    ("length by Int", "module M where\nf xs = length xs", "2:8", "counts by `Int`"),
    ("length of both", "module M where\nimport Nat\nf xs = length xs", "3:8", "is a name of Nat and of the Prelude"),
    ("operators", "f x y z = x == y == z", "4:18", "bind equally: put parentheses"),
    ("operator on the left", "infix 6 :&\ninfixl 7 |*|\ndata V = Nat :& Nat\na :& b |*| c = a", "7:3", "`|*|`, which is defined here, binds more than `:&`"),
    ("two fixities", "infixl 3 +++\ninfixr 3 +++\na +++ b = a", "5:10", "`+++` has two fixities"),
    ("fixity alone", "infixl 3 +++\nf x = x", "4:10", "`+++` has a fixity and no equation here"),
    ("fixity of a parameter", "f cmp x = x where infixl 3 `cmp`", "4:29", "`cmp` has a fixity and no equation here"),
    ("fixities within", "f x = x +++ x -|- x where { infixl 3 +++; infixr 3 -|-; a +++ b = a; a -|- b = a }", "4:15",
     "`-|-` and `+++` bind equally"),
    ("section", "f x = (x + x *)", "4:14", "binds more than what stands before it"),
    ("comment", "f x = x {- oh", "4:9", "has no end"),
    ("parenthesis", "f x = (x\ng = f", "5:1", "`)` is wanted behind the expression, before the line"),
    ("layout of a block", "f x = case x of\n    Zero -> x\n   Succ y -> y", "6:4", "begins in column 4, where the lines of the block begin in column 5"),
    ("export", "module M (f, g) where\nf x = x", "1:14", "`g` is exported and not in scope"),
    ("class in a context", "f :: Show a => a -> a\nf x = x", "4:6", "can't stand in a context"),
    ("lambda case", "f = \\case\n  Zero -> Zero", "4:5", "write `\\x -> case x of`"),
    ("strict field", "data A = A !Nat", "4:12", "leave out the `!`"),
    ("Ord without Eq", "data A = A deriving Ord", "4:21", "write `deriving (Eq, Ord)`"),
    ("functions derived", "data A = A (Nat -> Nat) deriving Eq", "4:34", "functions can't be compared"),
    ("type that is itself", "type A = [A]\nf :: A -> A\nf x = x", "4:6", "declare it by `data`"),
    ("large tuple", "f = (1, 2, 3, 4, 5, 6, 7, 8)", "4:5", "at most 7 parts"),
    ("wildcard", "f x = _", "4:7", "stands in patterns alone"),
]


def module_of(text):
    """A module: with the usual first lines, where it has none of its own."""
    return text if text.startswith("module") else HEAD + text + "\n"


class Refusals(unittest.TestCase):
    """Each refusal has its place and its sentence."""

    def test_each(self):
        for name, text, place, sentence in REFUSALS:
            with self.subTest(name):
                with self.assertRaises(fun.Refused) as caught:
                    fun.translate(module_of(text))
                first = caught.exception.messages[0]
                self.assertEqual(f"{first.line}:{first.column}", place, first.sentence)
                self.assertIn(sentence, first.sentence)

    def test_all_at_once(self):
        with self.assertRaises(fun.Refused) as caught:
            fun.translate(module_of("f = 'a'\ng = \"b\"\nh = 22"))
        self.assertEqual([one.line for one in caught.exception.messages], [4, 5, 6])
        with self.assertRaises(fun.Refused) as caught:
            fun.translate(module_of("f = True + 1\ng :: Bool\ng = Zero\nh = k"))
        self.assertEqual([one.line for one in caught.exception.messages], [4, 6, 7])

    def test_shown(self):
        text = module_of("f = 'a'")
        with self.assertRaises(fun.Refused) as caught:
            fun.translate(text)
        shown = messages.shown(caught.exception.messages[0], "M.hs", text).split("\n")
        self.assertTrue(shown[0].startswith("M.hs:4:5: "))
        self.assertEqual(shown[1:3], ["    f = 'a'", "        ^"])


class Values(unittest.TestCase):
    """What expressions come to is what they are in Haskell."""

    def compare(self, options):
        for name, declarations, expressions in VALUES:
            text = HEAD + textwrap.dedent(declarations).lstrip("\n")
            if "subtract'" in repr(expressions):
                text += "subtract' x y = y - x\n"
            for number, (expression, _) in enumerate(expressions):
                text += f"example{number} = {expression}\n"
            translation = fun.translate(text, name, options)
            machine = Machine(translation)
            for number, (expression, expected) in enumerate(expressions):
                with self.subTest(name, expression=expression):
                    self.assertEqual(value_of(translation, machine, f"example{number}"), expected)

    def test_with_all_steps(self):
        self.compare(ALL_STEPS)

    def test_without_steps(self):
        self.compare(NO_STEPS)


class Shapes(unittest.TestCase):
    """What the steps of the translation do to small modules."""

    def rules(self, text, **options):
        return [one.text.split("} ", 1)[1] for one in fun.translate(module_of(text), "", fun.Options(**options)).rules]

    def test_copy(self):
        text = "f :: Nat -> [Nat] -> [Nat]\nf n xs = map (\\x -> x + n) xs"
        self.assertIn("map_plus n (Cons x xs) => Cons (plus x n) (map_plus n xs);", self.rules(text))
        self.assertIn("map f' (Cons x xs) => Cons (f' x) (map f' xs);", self.rules(text, copies=False))

    def test_condition(self):
        text = "f :: Nat -> Nat\nf n | n == 0 = 0\n    | otherwise = f (n - 1)"
        self.assertEqual(self.rules(text), ["f Zero => Zero;", "f (Succ n') => f n';"])
        self.assertIn("f_case1 False n => f (minus n (Succ Zero));", self.rules(text, conditions=False))

    def test_short_circuit(self):
        text = "f :: [Bool] -> Bool\nf (x : xs) = x && f xs\nf [] = True"
        self.assertEqual(self.rules(text), ["f Nil => True;", "f (Cons True xs) => f xs;", "f (Cons False xs) => False;"])

    def test_patterns(self):
        text = "f :: [Nat] -> Nat\nf (x : xs) | x > f xs = x\n           | otherwise = f xs\nf [] = 0"
        self.assertIn("f (Cons x xs) => f_case1 (gt x (f xs)) (Cons x xs);", self.rules(text))
        self.assertIn("f (Cons x xs) => f_case1 (gt x (f xs)) x xs;", self.rules(text, patterns=False))

    def test_unfold(self):
        text = "f :: [Nat] -> [Nat]\nf (a : b : r) = f (a + b : r)\nf xs = xs\ng x y = f [x, y]"
        self.assertIn("g x y => Cons (plus x y) Nil;", self.rules(text))
        self.assertIn("g x y => f (Cons x (Cons y Nil));", self.rules(text, unfold=False))

    def test_own_sort(self):
        translation = fun.translate(module_of("f :: [a] -> [a]\nf xs = xs\ng :: Ord b => b -> b\ng x = max x x"))
        self.assertIn("fun f : List -> List;", translation.system)
        self.assertEqual([one.kind for one in translation.warnings], ["default"])
        self.assertEqual(translation.functions[1].type, "Ord b => b -> b")
        self.assertEqual(translation.functions[1].instance, "Nat -> Nat")

    def test_warnings(self):
        translation = fun.translate(module_of("f :: Maybe a -> a\nf (Just x) = x\nxs :: [Nat]\nxs = 1 : xs"))
        self.assertEqual([(one.line, one.kind) for one in translation.warnings], [(5, "uncovered"), (7, "lazy")])
        self.assertIn("`f Nothing`", translation.warnings[0].sentence)

    def test_part(self):
        translation = fun.translate(module_of("f :: Nat -> Nat\nf x = x\ng :: Nat -> Nat\ng x = h x\nh x = x"))
        self.assertNotIn("fun f :", translation.system_of("g"))
        self.assertEqual([one.line for one in translation.part("g").rules], [7, 8])

    def test_names(self):
        translation = fun.translate(module_of("rule :: Nat -> Nat\nrule x = x\nsort' :: Bool -> Bool\nsort' rule = rule"))
        self.assertIn("fun rule' : Nat -> Nat;", translation.system)


class Speed(unittest.TestCase):
    """A module of 300 functions is translated in under two seconds of a processor."""

    def test_three_hundred(self):
        text = HEAD + "data T = A | B T | C T T deriving (Eq, Ord)\n"
        for number in range(300):
            text += (f"f{number} :: T -> [Nat] -> Nat\nf{number} A (x : xs) | x > 2 = x + length xs\n"
                     f"f{number} (B t) xs = f{max(number - 1, 0)} t (map (+ {number % 9}) xs)\n"
                     f"f{number} (C t u) xs = let n = f{number} t xs in n * f{number} u xs + n\nf{number} _ _ = 0\n")
        begin = time.process_time()
        translation = fun.translate(text)
        self.assertGreater(len(translation.rules), 1000)
        # two seconds on an idle machine; a busy or slow one has taken twice as long
        self.assertLess(time.process_time() - begin, 10.0)


if __name__ == "__main__":
    sys.setrecursionlimit(20_000)
    unittest.main()
