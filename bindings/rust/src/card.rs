//! Cards: a filled table as a file that depots swap.
use crate::{raw, refusal, Area, Refusal};

/// Which of its area's two tables a card holds.
#[derive(Clone, Copy, Debug, PartialEq, Eq, Hash)]
#[repr(u32)]
pub enum Kind {
    /// The one that [`Area::fill_by_number`] fills.
    ByNumber = 1,
    /// The one that [`Area::fill_by_square`] fills.
    BySquare = 2,
}

impl Area {
    /// How many bytes a card of the area has: 512 for block 0, and 512 for each 126 squares or the rest of them. At most 68,174,848.
    /// Refused: [`Refusal::AreaLimit`], then [`Refusal::TooManySquares`].
    ///
    /// ```
    /// # use uvalinda::{Area, Refusal};
    /// assert_eq!(Area::new(126, 1).card_length(), Ok(1024));
    /// assert_eq!(Area::new(127, 1).card_length(), Ok(1536));
    /// assert_eq!(Area::new(4096, 4096).card_length(), Ok(68_174_848));
    /// assert_eq!(Area::new(4096, 4097).card_length(), Err(Refusal::TooManySquares));
    /// ```
    pub fn card_length(self) -> Result<u64, Refusal> {
        let mut bytes = [0];
        // SAFETY: the array is passed with its own length.
        let returned = unsafe { raw::uvalinda_card_length(self.w, self.h, bytes.as_mut_ptr(), bytes.len()) };
        refusal::unless_refused(returned, bytes, |[bytes]| bytes)
    }

    /// Writes the card of a right table to a file that has exactly its length, [`Area::card_length`].
    ///
    /// A card is made of blocks of 512 bytes, which are not those of the division. A block is 128 words of 32 bits, each with its lowest byte first: 126 of
    /// content, one that counts those in use, and a check, which is 1 plus the sum of the other 127, modulo 2 to the 32nd. Words that are not in use are 0.
    /// Block 0 uses four: the version, which is 1, then w, h and the kind. The table stands from block 1 on. The origin is not on a card.
    ///
    /// Refused, with the file as it was: [`Refusal::AreaLimit`], [`Refusal::TooManySquares`], [`Refusal::TableLength`] for a table that has not exactly w·h
    /// places or a file of another length, then [`Refusal::Departure`] for a wrong table.
    ///
    /// ```
    /// # use uvalinda::{Area, Kind, Refusal};
    /// let area = Area::new(2, 2);
    /// let mut file = [0; 1024];
    /// assert_eq!(area.write_card(Kind::ByNumber, &[0, 2, 3, 1], &mut file), Ok(()));
    /// assert_eq!(file[..16], [1, 0, 0, 0, 2, 0, 0, 0, 2, 0, 0, 0, 1, 0, 0, 0]); // version 1, 2 by 2, by number
    /// assert_eq!(file[512..528], [0, 0, 0, 0, 2, 0, 0, 0, 3, 0, 0, 0, 1, 0, 0, 0]); // the table
    /// assert_eq!(area.write_card(Kind::BySquare, &[0, 2, 3, 1], &mut file), Err(Refusal::Departure));
    /// assert_eq!(area.write_card(Kind::ByNumber, &[0, 2, 3, 1], &mut file[1..]), Err(Refusal::TableLength));
    /// ```
    pub fn write_card(self, kind: Kind, table: &[u32], file: &mut [u8]) -> Result<(), Refusal> {
        // SAFETY: the slices are passed with their own lengths.
        let returned = unsafe { raw::uvalinda_write_card(self.w, self.h, kind as u32, table.as_ptr(), table.len(), file.as_mut_ptr(), file.len()) };
        refusal::unless_refused(returned, [0u32; 0], |[]| ())
    }

    /// Reads the table of a card. The one file that is taken is what [`Area::write_card`] writes for this area and this kind.
    ///
    /// Refused, with the table as it was: [`Refusal::AreaLimit`], [`Refusal::TooManySquares`], [`Refusal::TableLength`] for a table that has not exactly w·h
    /// places, then [`Refusal::BadCheck`], with the first whole block of the file whose check is bad, then [`Refusal::Departure`] for every other file that is
    /// not the card, as one of another length.
    ///
    /// ```
    /// # use uvalinda::{Area, Kind, Refusal};
    /// let area = Area::new(3, 4);
    /// let (mut table, mut read, mut file) = ([0; 12], [0; 12], [0; 1024]);
    /// area.fill_by_number(&mut table)?;
    /// area.write_card(Kind::ByNumber, &table, &mut file)?;
    /// area.read_card(Kind::ByNumber, &file, &mut read)?;
    /// assert_eq!(read, table);
    /// assert_eq!(area.read_card(Kind::BySquare, &file, &mut read), Err(Refusal::Departure));
    /// file[600] += 1;
    /// assert_eq!(area.read_card(Kind::ByNumber, &file, &mut read), Err(Refusal::BadCheck { block: 1 }));
    /// # Ok::<(), Refusal>(())
    /// ```
    pub fn read_card(self, kind: Kind, file: &[u8], table: &mut [u32]) -> Result<(), Refusal> {
        let (Area { w, h, .. }, kind, mut block) = (self, kind as u32, [0]);
        // SAFETY: the slices and the array are passed with their own lengths.
        let returned = unsafe {
            raw::uvalinda_read_card(w, h, kind, file.as_ptr(), file.len(), table.as_mut_ptr(), table.len(), block.as_mut_ptr(), block.len())
        };
        refusal::unless_refused(returned, block, |_| ())
    }
}
