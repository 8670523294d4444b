"""The table of everyday mistakes, whole."""

from .feed_mistakes import FEED_RECORDS, SILENT
from .sheet_mistakes import CLUB_RECORDS, LEAGUES, LINE_RECORDS, MATCH_RECORDS, WHOLE_FILES

TABLE = WHOLE_FILES + LEAGUES + CLUB_RECORDS + MATCH_RECORDS + LINE_RECORDS + FEED_RECORDS + SILENT
