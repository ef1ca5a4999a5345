;; What both drivers of Emacs share: a line for each step, and waiting until something holds.  -*- lexical-binding: t -*-
(require 'package)
(package-initialize)
(setq make-backup-files nil auto-save-default nil create-lockfiles nil)

(defun out (name words &rest values)
  (princ (format "%s: %s\n" name (apply #'format words values))))

(defun wait-for (is-there)
  "Waits until a function answers no nil, 60 seconds at most, and answers what it answers."
  (let ((end (+ (float-time) 60)) (found nil))
    (while (and (not (setq found (funcall is-there))) (< (float-time) end))
      (accept-process-output nil 0.02))
    found))

(defun stand (text &optional more)
  "Goes to where a text begins, and so many characters behind that."
  (goto-char (point-min))
  (search-forward text)
  (goto-char (+ (match-beginning 0) (or more 0))))
