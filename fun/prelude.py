"""What a module knows without a declaration: functions of the Prelude and of Nat, in the source language itself.

`SOURCE` is typed before each module; a function of it comes into the system only where it is used. Names with a quote
behind them are not seen by modules: they say what the operators of `Eq` and `Ord` are, by `==` and `compare`.
"""

DATA = """
data Bool = False | True deriving (Eq, Ord)
data Ordering = LT | EQ | GT deriving (Eq, Ord)
data Maybe a = Nothing | Just a deriving (Eq, Ord)
data Either a b = Left a | Right b deriving (Eq, Ord)
data Nat = Zero | Succ Nat deriving (Eq, Ord)
"""

SOURCE = """
not :: Bool -> Bool
not True = False
not False = True

(&&) :: Bool -> Bool -> Bool
True && x = x
False && _ = False

(||) :: Bool -> Bool -> Bool
True || _ = True
False || x = x

otherwise :: Bool
otherwise = True

map :: (a -> b) -> [a] -> [b]
map _ [] = []
map f (x : xs) = f x : map f xs

filter :: (a -> Bool) -> [a] -> [a]
filter _ [] = []
filter p (x : xs) = if p x then x : filter p xs else filter p xs

foldr :: (a -> b -> b) -> b -> [a] -> b
foldr _ z [] = z
foldr f z (x : xs) = f x (foldr f z xs)

foldl :: (b -> a -> b) -> b -> [a] -> b
foldl _ z [] = z
foldl f z (x : xs) = foldl f (f z x) xs

(++) :: [a] -> [a] -> [a]
[] ++ ys = ys
(x : xs) ++ ys = x : (xs ++ ys)

reverse :: [a] -> [a]
reverse xs = reverse' xs []

reverse' :: [a] -> [a] -> [a]
reverse' [] ys = ys
reverse' (x : xs) ys = reverse' xs (x : ys)

concat :: [[a]] -> [a]
concat [] = []
concat (xs : xss) = xs ++ concat xss

concatMap :: (a -> [b]) -> [a] -> [b]
concatMap _ [] = []
concatMap f (x : xs) = f x ++ concatMap f xs

zip :: [a] -> [b] -> [(a, b)]
zip (x : xs) (y : ys) = (x, y) : zip xs ys
zip _ _ = []

zipWith :: (a -> b -> c) -> [a] -> [b] -> [c]
zipWith f (x : xs) (y : ys) = f x y : zipWith f xs ys
zipWith _ _ _ = []

takeWhile :: (a -> Bool) -> [a] -> [a]
takeWhile _ [] = []
takeWhile p (x : xs) = if p x then x : takeWhile p xs else []

dropWhile :: (a -> Bool) -> [a] -> [a]
dropWhile _ [] = []
dropWhile p (x : xs) = if p x then dropWhile p xs else x : xs

all :: (a -> Bool) -> [a] -> Bool
all _ [] = True
all p (x : xs) = p x && all p xs

any :: (a -> Bool) -> [a] -> Bool
any _ [] = False
any p (x : xs) = p x || any p xs

and :: [Bool] -> Bool
and [] = True
and (x : xs) = x && and xs

or :: [Bool] -> Bool
or [] = False
or (x : xs) = x || or xs

fst :: (a, b) -> a
fst (x, _) = x

snd :: (a, b) -> b
snd (_, y) = y

id :: a -> a
id x = x

const :: a -> b -> a
const x _ = x

flip :: (a -> b -> c) -> b -> a -> c
flip f x y = f y x

(.) :: (b -> c) -> (a -> b) -> a -> c
(f . g) x = f (g x)

($) :: (a -> b) -> a -> b
f $ x = f x

curry :: ((a, b) -> c) -> a -> b -> c
curry f x y = f (x, y)

uncurry :: (a -> b -> c) -> (a, b) -> c
uncurry f (x, y) = f x y

maybe :: b -> (a -> b) -> Maybe a -> b
maybe z _ Nothing = z
maybe _ f (Just x) = f x

either :: (a -> c) -> (b -> c) -> Either a b -> c
either f _ (Left x) = f x
either _ g (Right y) = g y

null :: [a] -> Bool
null [] = True
null (_ : _) = False

head :: [a] -> a
head (x : _) = x

tail :: [a] -> [a]
tail (_ : xs) = xs

elem :: Eq a => a -> [a] -> Bool
elem _ [] = False
elem x (y : ys) = x == y || elem x ys

notElem :: Eq a => a -> [a] -> Bool
notElem _ [] = True
notElem x (y : ys) = x /= y && notElem x ys

unequal' :: Eq a => a -> a -> Bool
unequal' x y = not (x == y)

less' :: Ord a => a -> a -> Bool
less' x y = case compare x y of { LT -> True; EQ -> False; GT -> False }

lessEqual' :: Ord a => a -> a -> Bool
lessEqual' x y = case compare x y of { LT -> True; EQ -> True; GT -> False }

greater' :: Ord a => a -> a -> Bool
greater' x y = case compare x y of { LT -> False; EQ -> False; GT -> True }

greaterEqual' :: Ord a => a -> a -> Bool
greaterEqual' x y = case compare x y of { LT -> False; EQ -> True; GT -> True }

max' :: Ord a => a -> a -> a
max' x y = if x <= y then y else x

min' :: Ord a => a -> a -> a
min' x y = if x <= y then x else y

lessNat' :: Nat -> Nat -> Bool
lessNat' _ Zero = False
lessNat' Zero (Succ _) = True
lessNat' (Succ x) (Succ y) = lessNat' x y

lessEqualNat' :: Nat -> Nat -> Bool
lessEqualNat' Zero _ = True
lessEqualNat' (Succ _) Zero = False
lessEqualNat' (Succ x) (Succ y) = lessEqualNat' x y

greaterNat' :: Nat -> Nat -> Bool
greaterNat' Zero _ = False
greaterNat' (Succ _) Zero = True
greaterNat' (Succ x) (Succ y) = greaterNat' x y

greaterEqualNat' :: Nat -> Nat -> Bool
greaterEqualNat' _ Zero = True
greaterEqualNat' Zero (Succ _) = False
greaterEqualNat' (Succ x) (Succ y) = greaterEqualNat' x y
"""

NAT_SOURCE = """
(+) :: Nat -> Nat -> Nat
Zero + y = y
Succ x + y = Succ (x + y)

(*) :: Nat -> Nat -> Nat
Zero * _ = Zero
Succ x * y = y + x * y

(-) :: Nat -> Nat -> Nat
x - Zero = x
Zero - Succ _ = Zero
Succ x - Succ y = x - y

length :: [a] -> Nat
length [] = Zero
length (_ : xs) = Succ (length xs)

take :: Nat -> [a] -> [a]
take Zero _ = []
take (Succ _) [] = []
take (Succ n) (x : xs) = x : take n xs

drop :: Nat -> [a] -> [a]
drop Zero xs = xs
drop (Succ _) [] = []
drop (Succ n) (_ : xs) = drop n xs

replicate :: Nat -> a -> [a]
replicate Zero _ = []
replicate (Succ n) x = x : replicate n x
"""

# The operators of the classes: the class, and what they are at a type but Nat. `==` and `compare` are derived.
METHODS = {
    "==": ("Eq", None, "a -> a -> Bool"),
    "/=": ("Eq", "unequal'", "a -> a -> Bool"),
    "compare": ("Ord", None, "a -> a -> Ordering"),
    "<": ("Ord", "less'", "a -> a -> Bool"),
    "<=": ("Ord", "lessEqual'", "a -> a -> Bool"),
    ">": ("Ord", "greater'", "a -> a -> Bool"),
    ">=": ("Ord", "greaterEqual'", "a -> a -> Bool"),
    "max": ("Ord", "max'", "a -> a -> a"),
    "min": ("Ord", "min'", "a -> a -> a"),
}
NAT_METHODS = {"<": "lessNat'", "<=": "lessEqualNat'", ">": "greaterNat'", ">=": "greaterEqualNat'"}

# Names of Nat that a module sees only by `import Nat`; the arithmetic of its class needs no import of its own.
NAT_NAMES = ("length", "take", "drop", "replicate")
NAT_ARITHMETIC = ("+", "*", "-")

PRELUDE_NAMES = frozenset(
    """
    ! $ $! && * ** *> + ++ - . / /= < <$ <$> <* <*> <= <> =<< == > >= >> >>= ^ ^^ || !! abs acos acosh all and any
    appendFile asTypeOf asin asinh atan atan2 atanh break ceiling compare concat concatMap const cos cosh curry cycle
    decodeFloat div divMod drop dropWhile either elem encodeFloat enumFrom enumFromThen enumFromThenTo enumFromTo error
    errorWithoutStackTrace even exp exponent fail filter flip floatDigits floatRadix floatRange floor fmap foldMap foldl
    foldl1 foldr foldr1 fromEnum fromInteger fromIntegral fromRational fst gcd getChar getContents getLine head id init
    interact ioError isDenormalized isIEEE isInfinite isNaN isNegativeZero iterate last lcm length lex lines log logBase
    lookup map mapM mapM_ mappend max maxBound maximum maybe mconcat mempty min minBound minimum mod negate not notElem
    null odd or otherwise pi pred print product properFraction pure putChar putStr putStrLn quot quotRem read readFile
    readIO readList readLn readParen reads readsPrec realToFrac recip rem repeat replicate return reverse round scaleFloat
    scanl scanl1 scanr scanr1 seq sequence sequenceA sequence_ show showChar showList showParen showString shows
    showsPrec significand signum sin sinh snd span splitAt sqrt subtract succ sum tail take takeWhile tan tanh toEnum
    toInteger toRational traverse truncate uncurry undefined unlines until unwords unzip unzip3 userError words
    writeFile zip zip3 zipWith zipWith3
    """.split()
) - {"!"}

PRELUDE_TYPES = frozenset(
    """
    Applicative Bool Bounded Char Double Either Enum Eq FilePath Float Floating Foldable Fractional Functor IO IOError
    Int Integer Integral Maybe Monad MonadFail Monoid Num Ord Ordering Ratio Rational Read ReadS Real RealFloat RealFrac
    Semigroup Show ShowS String Traversable Word
    """.split()
)
PRELUDE_CONSTRUCTORS = frozenset("True False Nothing Just Left Right LT EQ GT".split())

# Names that no definition of the same name replaces: what to do about them.
NO_VALUES = {
    "undefined": "`undefined` is no part of the language: leave out the case, or give the result a `Maybe`",
    "error": "`error` is no part of the language: leave out the case, or give the result a `Maybe`",
    "errorWithoutStackTrace": "`errorWithoutStackTrace` is no part of the language: leave out the case",
    "seq": "`seq` is no part of the language: leave it out",
    "$!": "`$!` is no part of the language: write `$`",
}
