start :: ReT Bool Bool I ()
start = refold all const $
  par lamp $ par lamp $ par lamp $ par lamp $ par lamp $ par lamp $ par lamp $ par lamp $
  par lamp $ par lamp $ par lamp $ par lamp $ par lamp $ par lamp $ par lamp $ par lamp $
  par lamp $ par lamp $ par lamp $ par lamp $ par lamp $ par lamp $ par lamp $ par lamp $
  par lamp $ par lamp $ par lamp $ par lamp $ par lamp $ par lamp $ par lamp $ par lamp $
  par lamp $ par lamp $ par lamp $ par lamp $ par lamp $ par lamp $ par lamp $ par lamp $
  par lamp $ par lamp $ par lamp $ par lamp $ par lamp $ par lamp $ par lamp $ par lamp $
  par lamp $ par lamp $ par lamp $ par lamp $ par lamp $ par lamp $ par lamp $ par lamp $
  par lamp $ par lamp $ par lamp $ par lamp $ par lamp $ par lamp $ par lamp $ par lamp $
  lamp
all :: a -> Bool
all x = True
lamp :: ReT Bool Bool I ()
lamp = signal True >>= \x -> lamp
