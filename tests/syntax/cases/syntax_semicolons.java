// taken
;;;
