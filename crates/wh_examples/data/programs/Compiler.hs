-- | A compiler from expressions to the code of a stack machine, with a peephole optimiser.
module Compiler
  ( Expr (..)
  , Instr (..)
  , Code
  , eval
  , compile
  , step
  , exec
  , runCode
  , optimise
  , peephole
  , decompile
  , loads
  , fold
  ) where

import Prelude hiding (length)
import Nat

data Expr
  = Num Nat
  | Var Nat
  | Add Expr Expr
  | Mul Expr Expr
  | Choose Expr Expr Expr
  deriving (Eq, Show)

data Instr
  = Push Nat
  | Load Nat
  | AddI
  | MulI
  | Pop
  | Swap
  | Branch Code Code
  deriving (Eq, Show)

type Code = [Instr]

type Stack = [Nat]

eval :: (Nat -> Nat) -> Expr -> Nat
eval _ (Num n) = n
eval env (Var x) = env x
eval env (Add a b) = eval env a + eval env b
eval env (Mul a b) = eval env a * eval env b
eval env (Choose c t e)
  | eval env c == 0 = eval env e
  | otherwise = eval env t

compile :: Expr -> Code
compile (Num n) = [Push n]
compile (Var x) = [Load x]
compile (Add a b) = compile a ++ compile b ++ [AddI]
compile (Mul a b) = compile a ++ compile b ++ [MulI]
compile (Choose c t e) = compile c ++ [Branch (compile t) (compile e)]

-- | What an instruction without branches makes of a stack.
step :: (Nat -> Nat) -> Instr -> Stack -> Maybe Stack
step _ (Push n) s = Just (n : s)
step env (Load x) s = Just (env x : s)
step _ AddI (b : a : s) = Just ((a + b) : s)
step _ MulI (b : a : s) = Just ((a * b) : s)
step _ Pop (_ : s) = Just s
step _ Swap (b : a : s) = Just (a : b : s)
step _ _ _ = Nothing

exec :: (Nat -> Nat) -> Code -> Stack -> Maybe Stack
exec _ [] s = Just s
exec env (Branch yes no : rest) s = case s of
  [] -> Nothing
  c : s' -> case exec env (if c == 0 then no else yes) s' of
    Nothing -> Nothing
    Just s'' -> exec env rest s''
exec env (i : rest) s = case step env i s of
  Nothing -> Nothing
  Just s' -> exec env rest s'

runCode :: Code -> Maybe Nat
runCode code = case exec id code [] of
  Just [n] -> Just n
  _ -> Nothing

-- | Neutral operands and constant conditions go away.
optimise :: Expr -> Expr
optimise (Add a b) = case (optimise a, optimise b) of
  (Num 0, e) -> e
  (e, Num 0) -> e
  (Num m, Num n) -> Num (m + n)
  (d, e) -> Add d e
optimise (Mul a b) = case (optimise a, optimise b) of
  (Num 1, e) -> e
  (e, Num 1) -> e
  (d, e) -> Mul d e
optimise (Choose c t e) = case optimise c of
  Num 0 -> optimise e
  Num _ -> optimise t
  d -> Choose d (optimise t) (optimise e)
optimise e = e

peephole :: Code -> Code
peephole (Push _ : Pop : rest) = peephole rest
peephole (Load _ : Pop : rest) = peephole rest
peephole (Swap : Swap : rest) = peephole rest
peephole (Push 0 : AddI : rest) = peephole rest
peephole (Push 1 : MulI : rest) = peephole rest
peephole (Swap : AddI : rest) = AddI : peephole rest
peephole (i : rest) = i : peephole rest
peephole [] = []

decompile :: Code -> Maybe Expr
decompile code = go code []
  where
    go [] [e] = Just e
    go (Push n : rest) s = go rest (Num n : s)
    go (Load x : rest) s = go rest (Var x : s)
    go (AddI : rest) (b : a : s) = go rest (Add a b : s)
    go (MulI : rest) (b : a : s) = go rest (Mul a b : s)
    go (Pop : rest) (_ : s) = go rest s
    go (Swap : rest) (b : a : s) = go rest (a : b : s)
    go (Branch yes no : rest) (c : s) = case (go yes [], go no []) of
      (Just t, Just e) -> go rest (Choose c t e : s)
      _ -> Nothing
    go _ _ = Nothing

fold :: (Nat -> a) -> (Nat -> a) -> (a -> a -> a) -> (a -> a -> a) -> (a -> a -> a -> a) -> Expr -> a
fold num var add mul choose = go
  where
    go (Num n) = num n
    go (Var x) = var x
    go (Add a b) = add (go a) (go b)
    go (Mul a b) = mul (go a) (go b)
    go (Choose c t e) = choose (go c) (go t) (go e)

loads :: Expr -> [Nat]
loads = fold (const []) (: []) (++) (++) (\c t e -> c ++ t ++ e)

-- >>> compile (Add (Num 1) (Mul (Num 2) (Var 3)))
-- [Push 1,Push 2,Load 3,MulI,AddI]
-- >>> runCode (compile (Add (Num 1) (Mul (Num 2) (Num 3))))
-- Just 7
-- >>> optimise (Add (Num 0) (Mul (Var 1) (Num 1)))
-- Var 1
-- >>> peephole [Push 0, AddI, Push 3, Pop, Load 1]
-- [Load 1]
-- >>> decompile (compile (Add (Num 1) (Var 0)))
-- Just (Add (Num 1) (Var 0))
-- >>> loads (Add (Var 1) (Mul (Num 2) (Var 3)))
-- [1,3]
