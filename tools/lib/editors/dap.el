;; Drives Emacs with dap-mode through the model, and prints where it stands: a line for each step.  -*- lexical-binding: t -*-
(require 'dap-mode)
(setq dap-auto-configure-features nil)

(defun frame () (and (dap--cur-session) (dap--debug-session-active-frame (dap--cur-session))))

(defun place ()
  "The line where the session stands, and of what; nil while it runs."
  (and (frame) (format "line %s of %s" (gethash "line" (frame)) (gethash "name" (frame)))))

(defun go (name command)
  "Prints where a command leads, which is another place than before."
  (let ((before (place)))
    (funcall command)
    (wait-for (lambda () (and (place) (not (equal (place) before)))))
    (out name "%s" (place))))

(defun said (name expression context)
  "Prints what an expression is answered with."
  (let (answer)
    (dap--send-message (dap--make-request "evaluate" (list :expression expression :frameId (gethash "id" (frame)) :context context))
                       (lambda (reply) (setq answer (if (gethash "success" reply) (gethash "result" (gethash "body" reply)) (gethash "message" reply))))
                       (dap--cur-session))
    (wait-for (lambda () answer))
    (out name "%s" (replace-regexp-in-string "\n" " / " (string-trim answer)))))

(find-file (getenv "MODEL"))
(stand "printf")
(dap-breakpoint-add)
(go "launched" (lambda () (dap-debug (append (cdr (assoc "Promela" dap-debug-template-configurations)) (list :onChoice "first")))))
(go "continue" (lambda () (dap-continue (dap--cur-session) (dap--debug-session-thread-id (dap--cur-session)))))
(go "next" (lambda () (dap-next (dap--cur-session))))
(said "value" "_pid" "hover")
(go "back" #'promela-step-back)
(go "on" (lambda () (dap-next (dap--cur-session))))
(said "why" "why" "repl")
(go "reversed" #'promela-run-back)
(dap-disconnect (dap--cur-session))
(out "end" "%s" (if (wait-for (lambda () (not (dap--session-running (dap--cur-session))))) "ended" "it runs on"))
