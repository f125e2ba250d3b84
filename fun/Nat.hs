-- | Natural numbers for programs that `wanda-fun` translates: `import Nat`, and GHC reads the same module.
--
-- `length`, `take`, `drop` and `replicate` are those of the Prelude with `Nat` in place of `Int`, so a module that uses
-- them hides the others: `import Prelude hiding (length, take, drop, replicate)`.
module Nat (Nat (..), length, take, drop, replicate) where

import Prelude hiding (drop, length, replicate, take)

data Nat = Zero | Succ Nat
  deriving (Eq, Ord, Show)

-- | Numerals are numbers from 0 on; a difference stops at zero.
instance Num Nat where
  Zero + y = y
  Succ x + y = Succ (x + y)
  Zero * _ = Zero
  Succ x * y = y + x * y
  x - Zero = x
  Zero - Succ _ = Zero
  Succ x - Succ y = x - y
  abs x = x
  signum Zero = Zero
  signum (Succ _) = Succ Zero
  fromInteger n
    | n <= 0 = Zero
    | otherwise = Succ (fromInteger (n - 1))

length :: [a] -> Nat
length [] = Zero
length (_ : xs) = Succ (length xs)

take :: Nat -> [a] -> [a]
take Zero _ = []
take (Succ _) [] = []
take (Succ n) (x : xs) = x : take n xs

drop :: Nat -> [a] -> [a]
drop Zero xs = xs
drop (Succ _) [] = []
drop (Succ n) (_ : xs) = drop n xs

replicate :: Nat -> a -> [a]
replicate Zero _ = []
replicate (Succ n) x = x : replicate n x
