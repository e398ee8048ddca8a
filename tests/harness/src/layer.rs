//! A layer as plain numbers. The generators also make layers that the rules refuse.

#[derive(Clone, Copy, Debug, PartialEq, Eq)]
pub struct Settings {
    pub masks: u64,
    pub spacing: u64,
    pub margin: u64,
    pub weight: u64,
    pub budget: u64,
}

#[derive(Clone, Copy, Debug, PartialEq, Eq)]
pub struct Piece {
    pub shape: u64,
    pub x1: u64,
    pub y1: u64,
    pub x2: u64,
    pub y2: u64,
    /// The mask that the designer set, if one is.
    pub fixed: Option<u64>,
}

impl Piece {
    /// The least square, at the corner of the layer.
    pub fn at_corner(shape: u64) -> Piece {
        Piece {
            shape,
            x1: 0,
            y1: 0,
            x2: 1,
            y2: 1,
            fixed: None,
        }
    }
}

#[derive(Clone, Debug, PartialEq, Eq)]
pub struct Layer {
    pub settings: Settings,
    pub pieces: Vec<Piece>,
}

impl Layer {
    pub fn with_budget(&self, budget: u64) -> Layer {
        let mut layer = self.clone();
        layer.settings.budget = budget;
        layer
    }

    /// The layer text (RULES 9).
    pub fn text(&self) -> Vec<u8> {
        let s = &self.settings;
        let mut text = format!(
            "masks={}\nspacing={}\nmargin={}\nweight={}\nbudget={}\npieces={}\n",
            s.masks,
            s.spacing,
            s.margin,
            s.weight,
            s.budget,
            self.pieces.len()
        );
        for p in &self.pieces {
            text += &format!("piece={},{},{},{},{}\n", p.shape, p.x1, p.y1, p.x2, p.y2);
        }
        for (number, piece) in self.pieces.iter().enumerate() {
            if let Some(mask) = piece.fixed {
                text += &format!("fixed={number},{mask}\n");
            }
        }
        text.into_bytes()
    }
}
