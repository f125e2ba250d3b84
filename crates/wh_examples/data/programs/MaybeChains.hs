-- | Steps that may fail, one after the other.
module MaybeChains
  ( andThen
  , orElse
  , mapMaybe
  , lift2
  , sequenceAll
  , traverseAll
  , keep
  , firstJust
  , guarded
  , look
  , follow
  , minus
  , divide
  , average
  , Account (..)
  , withdraw
  , transfer
  , payAll
  , untilNothing
  , path
  ) where

import Prelude hiding (length)
import Nat

infixl 1 `andThen`
infixr 2 `orElse`

andThen :: Maybe a -> (a -> Maybe b) -> Maybe b
andThen Nothing _ = Nothing
andThen (Just x) f = f x

orElse :: Maybe a -> Maybe a -> Maybe a
orElse Nothing other = other
orElse found _ = found

mapMaybe :: (a -> b) -> Maybe a -> Maybe b
mapMaybe f m = m `andThen` (Just . f)

lift2 :: (a -> b -> c) -> Maybe a -> Maybe b -> Maybe c
lift2 f ma mb = ma `andThen` \a -> mb `andThen` \b -> Just (f a b)

-- | All or nothing.
sequenceAll :: [Maybe a] -> Maybe [a]
sequenceAll = foldr (lift2 (:)) (Just [])

traverseAll :: (a -> Maybe b) -> [a] -> Maybe [b]
traverseAll _ [] = Just []
traverseAll f (x : xs) = f x `andThen` \y -> traverseAll f xs `andThen` \ys -> Just (y : ys)

-- | What the steps gave that did not fail.
keep :: (a -> Maybe b) -> [a] -> [b]
keep f = concatMap (maybe [] (: []) . f)

firstJust :: (a -> Maybe b) -> [a] -> Maybe b
firstJust f = foldr (\x rest -> f x `orElse` rest) Nothing

guarded :: (a -> Bool) -> a -> Maybe a
guarded p x
  | p x = Just x
  | otherwise = Nothing

look :: Eq k => k -> [(k, v)] -> Maybe v
look _ [] = Nothing
look k ((k', v) : rest)
  | k == k' = Just v
  | otherwise = look k rest

-- | Looks a name up, then what it stands for, and so on, in one table after the other.
follow :: Eq k => [[(k, k)]] -> k -> Maybe k
follow [] k = Just k
follow (table : rest) k = look k table `andThen` follow rest

minus :: Nat -> Nat -> Maybe Nat
minus m 0 = Just m
minus 0 _ = Nothing
minus (Succ m) (Succ n) = minus m n

divide :: Nat -> Nat -> Maybe Nat
divide _ 0 = Nothing
divide m n = Just (times m m)
  where
    times fuel k = case (fuel, minus k n) of
      (Succ rest, Just k') -> 1 + times rest k'
      _ -> 0

average :: [Nat] -> Maybe Nat
average xs = total xs `divide` length xs
  where
    total = foldr (+) 0

data Account = Account Nat Nat
  deriving (Eq, Show)

withdraw :: Nat -> Account -> Maybe Account
withdraw n (Account name balance) = balance `minus` n `andThen` \rest -> Just (Account name rest)

transfer :: Nat -> (Account, Account) -> Maybe (Account, Account)
transfer n (from, Account name balance) =
  guarded (> 0) n `andThen` \amount ->
    withdraw amount from `andThen` \from' ->
      Just (from', Account name (balance + amount))

payAll :: [Nat] -> Account -> Maybe Account
payAll [] account = Just account
payAll (n : ns) account = withdraw n account `andThen` payAll ns

-- | Goes on until a step fails, or the number is used up; what was reached.
untilNothing :: Nat -> (a -> Maybe a) -> a -> a
untilNothing 0 _ x = x
untilNothing n f x = case f x of
  Nothing -> x
  Just y -> untilNothing (n - 1) f y

data Tree = Leaf Nat | Node [(Nat, Tree)]
  deriving (Eq, Show)

path :: [Nat] -> Tree -> Maybe Nat
path [] (Leaf n) = Just n
path (k : ks) (Node branches) = look k branches `andThen` path ks
path _ _ = Nothing

-- >>> sequenceAll [Just 1, Just (2 :: Nat)]
-- Just [1,2]
-- >>> sequenceAll [Just True, Nothing]
-- Nothing
-- >>> traverseAll (minus 5) [1, 2]
-- Just [4,3]
-- >>> keep (minus 5) [1, 7, 2]
-- [4,3]
-- >>> firstJust (guarded (> 3)) [1, 5, 9 :: Nat]
-- Just 5
-- >>> follow [[(1, 2)], [(2, 3)]] (1 :: Nat)
-- Just 3
-- >>> divide 17 5
-- Just 3
-- >>> average [2, 4, 6]
-- Just 4
-- >>> transfer 3 (Account 0 5, Account 1 2)
-- Just (Account 0 2,Account 1 5)
-- >>> payAll [1, 2, 3] (Account 0 5)
-- Nothing
-- >>> untilNothing 10 (\n -> minus n 3) 11
-- 2
-- >>> mapMaybe (+ 1) (Just (1 :: Nat))
-- Just 2
