//! A resistor's value as a designer writes it, by document 02's fourth request. Values and signs wait on a stack each: a sign is carried out when
//! one comes after it that binds no tighter, so that nothing here calls itself and a bracket is one more sign that waits.

use crate::words;

/// None where a stage was 0 or too large.
pub type Ohms = Option<i128>;

const MOST_OHMS: i128 = 4_294_967_295;
const MOST_OPEN: usize = 16;

/// The loosest first; a bracket that is open holds back all before it.
#[derive(Clone, Copy, PartialEq, PartialOrd)]
enum Sign {
    Open,
    Series,
    Parallel,
}

enum Token {
    Number(i128),
    Open,
    Close,
    Between(Sign),
}

/// A number that is written or has come out, if it may.
pub fn stage(ohms: i128) -> Ohms {
    (1..=MOST_OHMS).contains(&ohms).then_some(ohms)
}

/// What a word is made of, if it can stand in a value.
fn tokens(mut word: &[u8]) -> Option<Vec<Token>> {
    let mut found = Vec::new();
    while !word.is_empty() {
        let (token, length) = match word {
            [b'(', ..] => (Token::Open, 1),
            [b')', ..] => (Token::Close, 1),
            [b'+', ..] => (Token::Between(Sign::Series), 1),
            [b'|', b'|', ..] => (Token::Between(Sign::Parallel), 2),
            _ => {
                let digits = word.iter().take_while(|byte| byte.is_ascii_digit()).count();
                (Token::Number(words::whole(&word[..digits])?), digits)
            }
        };
        found.push(token);
        word = &word[length..];
    }
    Some(found)
}

#[derive(Default)]
struct Stacks {
    values: Vec<Ohms>,
    signs: Vec<Sign>,
}

impl Stacks {
    /// Carries out the last signs, as far as they bind at least as tightly as this one, which is no bracket; equal ones from the left, therefore.
    fn settle(&mut self, sign: Sign) {
        while let Some(last) = self.signs.pop_if(|last| *last >= sign) {
            let (right, left) = (self.values.pop().flatten(), self.values.pop().flatten());
            let joined = left.zip(right).map(|(left, right)| {
                let sum = left + right;
                if last == Sign::Parallel { left * right / sum } else { sum }
            });
            self.values.push(joined.and_then(stage));
        }
    }

    /// Whether one more bracket may be open.
    fn room(&self) -> bool {
        self.signs.iter().filter(|&&sign| sign == Sign::Open).count() < MOST_OPEN
    }

    /// Takes in a token that may stand where it does; false if a bracket is one too many.
    fn take(&mut self, token: &Token) -> bool {
        match *token {
            Token::Number(number) => self.values.push(stage(number)),
            Token::Between(sign) => {
                self.settle(sign);
                self.signs.push(sign);
            }
            Token::Open if self.room() => self.signs.push(Sign::Open),
            Token::Open => return false,
            Token::Close => {
                self.settle(Sign::Series);
                return self.signs.pop().is_some();
            }
        }
        true
    }
}

/// What the words of a value come to, or none where they are no value. Blanks stand in no token, so a token is never of two words.
pub fn value(words: &[&[u8]]) -> Option<Ohms> {
    let mut stacks = Stacks::default();
    // Whether the tokens so far end with a value, a bracketed one or a number.
    let mut ended = false;
    for word in words {
        for token in tokens(word)? {
            let begins = matches!(token, Token::Number(_) | Token::Open);
            if begins == ended || !stacks.take(&token) {
                return None;
            }
            ended = matches!(token, Token::Number(_) | Token::Close);
        }
    }
    stacks.settle(Sign::Series);
    (ended && stacks.signs.is_empty()).then(|| stacks.values.pop().flatten())
}
