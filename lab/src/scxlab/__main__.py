import sys

from scxlab.command import main

sys.exit(main())
