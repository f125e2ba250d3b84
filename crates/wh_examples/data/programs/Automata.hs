-- | Finite automata, and two small machines with a bound on their steps.
module Automata
  ( Letter (..)
  , State
  , Dfa (..)
  , runDfa
  , accepts
  , Nfa (..)
  , stepNfa
  , acceptsNfa
  , closure
  , Move (..)
  , Tape (..)
  , moveTape
  , runTuring
  , flipper
  , Command (..)
  , counterMachine
  , balanced
  ) where

import Prelude hiding (length)
import Nat

data Letter = A | B
  deriving (Eq, Show)

type State = Nat

-- | The first state, the states that accept, and the steps.
data Dfa = Dfa State [State] (State -> Letter -> State)

runDfa :: Dfa -> [Letter] -> State
runDfa (Dfa start _ step) = foldl step start

accepts :: Dfa -> [Letter] -> Bool
accepts m@(Dfa _ final _) word = runDfa m word `elem` final

data Nfa = Nfa [State] [State] [(State, Letter, State)] [(State, State)]

stepNfa :: [(State, Letter, State)] -> Letter -> [State] -> [State]
stepNfa table c states = concatMap follow table
  where
    follow (p, d, q)
      | c == d && p `elem` states = [q]
      | otherwise = []

-- | What is reached by silent steps, in no more rounds than there are such steps.
closure :: [(State, State)] -> [State] -> [State]
closure silent = go silent
  where
    go [] states = states
    go (_ : fuel) states = go fuel (foldr add states silent)
    add (p, q) states
      | p `elem` states && q `notElem` states = q : states
      | otherwise = states

acceptsNfa :: Nfa -> [Letter] -> Bool
acceptsNfa (Nfa start final table silent) word = any (`elem` final) (run (closure silent start) word)
  where
    run states [] = states
    run states (c : cs) = run (closure silent (stepNfa table c states)) cs

data Move = GoLeft | GoRight | Stay
  deriving (Eq, Show)

-- | What is to the left in reverse, what is read, what is to the right.
data Tape = Tape [Bool] Bool [Bool]
  deriving (Eq, Show)

moveTape :: Move -> Tape -> Tape
moveTape Stay t = t
moveTape GoLeft (Tape [] x r) = Tape [] False (x : r)
moveTape GoLeft (Tape (y : l) x r) = Tape l y (x : r)
moveTape GoRight (Tape l x []) = Tape (x : l) False []
moveTape GoRight (Tape l x (y : r)) = Tape (x : l) y r

-- | Runs a machine until it says nothing more, or for so many steps.
runTuring :: Nat -> (State -> Bool -> Maybe (State, Bool, Move)) -> State -> Tape -> Maybe Tape
runTuring Zero _ _ _ = Nothing
runTuring (Succ fuel) rules q tape@(Tape l x r) = case rules q x of
  Nothing -> Just tape
  Just (q', x', move) -> runTuring fuel rules q' (moveTape move (Tape l x' r))

-- | Turns each mark to the right into its opposite, up to a bound.
flipper :: Nat -> Tape -> Maybe Tape
flipper n = runTuring 20 rules n
  where
    rules 0 _ = Nothing
    rules q x = Just (q - 1, not x, GoRight)

data Command = Inc Nat | Dec Nat | Loop Nat [Command]
  deriving (Eq, Show)

type Registers = [(Nat, Nat)]

-- | A loop goes on while its register is not zero; the first number bounds how deep calls may nest.
counterMachine :: Nat -> [Command] -> Registers -> Maybe Registers
counterMachine _ [] regs = Just regs
counterMachine 0 _ _ = Nothing
counterMachine (Succ fuel) (c : cs) regs = case c of
  Inc r -> counterMachine fuel cs (change (+ 1) r regs)
  Dec r -> counterMachine fuel cs (change (\n -> n - 1) r regs)
  Loop r body
    | value r regs == 0 -> counterMachine fuel cs regs
    | otherwise -> case counterMachine fuel body regs of
        Nothing -> Nothing
        Just regs' -> counterMachine fuel (c : cs) regs'

change :: (Nat -> Nat) -> Nat -> Registers -> Registers
change f r [] = [(r, f 0)]
change f r ((s, n) : rest)
  | r == s = (s, f n) : rest
  | otherwise = (s, n) : change f r rest

value :: Nat -> Registers -> Nat
value _ [] = 0
value r ((s, n) : rest) = if r == s then n else value r rest

-- | Whether brackets fit: A opens, B closes.
balanced :: [Letter] -> Bool
balanced = go 0
  where
    go depth [] = depth == (0 :: Nat)
    go depth (A : rest) = go (depth + 1) rest
    go 0 (B : _) = False
    go (Succ depth) (B : rest) = go depth rest

-- >>> accepts (Dfa 0 [1] (\q c -> if c == A then 1 - q else q)) [A, B, A, A]
-- True
-- >>> acceptsNfa (Nfa [0] [2] [(0, A, 1), (1, B, 2)] [(2, 0)]) [A, B, A, B]
-- True
-- >>> closure [(0, 1), (1, 2)] [0]
-- [2,1,0]
-- >>> flipper 2 (Tape [] True [False])
-- Just (Tape [True,False] False [])
-- >>> counterMachine 20 [Loop 0 [Dec 0, Inc 1]] [(0, 2), (1, 1)]
-- Just [(0,0),(1,3)]
-- >>> balanced [A, A, B, B]
-- True
-- >>> balanced [A, B, B]
-- False
-- >>> moveTape GoLeft (Tape [] True [])
-- Tape [] False [True]
